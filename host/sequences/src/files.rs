//! The files of PCM inputs, one raw octet a sample, where every codec under test finds them.

use crate::pcm;
use second::g711::{compress, Law};
use std::fs;
use std::path::{Path, PathBuf};

#[derive(Clone, Copy, Debug, PartialEq, Eq)]
pub enum Kind {
    Normal,
    Overload,
    Homing,
    Jump,
}

impl Kind {
    pub const ALL: [Kind; 4] = [Kind::Normal, Kind::Overload, Kind::Homing, Kind::Jump];

    pub fn samples(self) -> usize {
        match self {
            Kind::Normal => 16_384,
            Kind::Overload => 2_048,
            Kind::Homing => 3_496,
            Kind::Jump => 4_096,
        }
    }

    fn levels(self) -> Vec<i32> {
        match self {
            Kind::Normal => pcm::normal(),
            Kind::Overload => pcm::overload(),
            Kind::Homing => pcm::homing(),
            Kind::Jump => pcm::jump(),
        }
    }

    fn stem(self) -> &'static str {
        match self {
            Kind::Normal => "nrm",
            Kind::Overload => "ovr",
            Kind::Homing => "init",
            Kind::Jump => "jump",
        }
    }
}

#[derive(Clone, Debug, PartialEq, Eq)]
pub struct Input {
    pub kind: Kind,
    pub law: Law,
    pub octets: Vec<u8>,
}

/// The eight files' contents.
#[derive(Clone, Debug, PartialEq, Eq)]
pub struct Inputs(pub Vec<Input>);

const FOLDER: &str = "crates/vectors/data";

/// A path given from the root of the repository.
pub fn in_repository(path: &str) -> PathBuf {
    Path::new(env!("CARGO_MANIFEST_DIR"))
        .join("../..")
        .join(path)
}

/// The file's path from the root of the repository.
pub fn path(kind: Kind, law: Law) -> String {
    let suffix = match law {
        Law::Mu => "m",
        Law::A => "a",
    };
    format!("{FOLDER}/{}.{suffix}", kind.stem())
}

fn all_eight() -> impl Iterator<Item = (Kind, Law)> {
    Kind::ALL
        .into_iter()
        .flat_map(|kind| Law::BOTH.map(|law| (kind, law)))
}

impl Input {
    fn made(kind: Kind, law: Law) -> Input {
        let levels = kind.levels().into_iter();
        Input {
            kind,
            law,
            octets: levels.map(|level| compress(law, level)).collect(),
        }
    }

    fn read(kind: Kind, law: Law) -> Result<Input, String> {
        let path = path(kind, law);
        let octets = fs::read(in_repository(&path)).map_err(|why| format!("{path}: {why}"))?;
        if octets.len() == kind.samples() {
            Ok(Input { kind, law, octets })
        } else {
            Err(format!("{path}: not {} octets", kind.samples()))
        }
    }

    fn write(&self) -> Result<(), String> {
        let path = path(self.kind, self.law);
        fs::write(in_repository(&path), &self.octets).map_err(|why| format!("{path}: {why}"))
    }
}

impl Inputs {
    pub fn made() -> Inputs {
        Inputs(
            all_eight()
                .map(|(kind, law)| Input::made(kind, law))
                .collect(),
        )
    }

    pub fn read() -> Result<Inputs, String> {
        all_eight()
            .map(|(kind, law)| Input::read(kind, law))
            .collect::<Result<_, _>>()
            .map(Inputs)
    }

    pub fn write(&self) -> Result<(), String> {
        fs::create_dir_all(in_repository(FOLDER)).map_err(|why| format!("{FOLDER}: {why}"))?;
        self.0.iter().try_for_each(Input::write)
    }

    pub fn octets(&self, kind: Kind, law: Law) -> &[u8] {
        let wanted = |input: &&Input| (input.kind, input.law) == (kind, law);
        let found = self.0.iter().find(wanted);
        &found.expect("all eight are held").octets
    }
}
