//! A copy of the workspace in a folder of its own, where mutants are built and shown to the witnesses.
//! The sources themselves are never touched.

use crate::mutant::Mutant;
use crate::told::told;
use crate::verdict::Verdict;
use crate::witness::{Witness, WITNESSES};
use std::os::unix::fs::symlink;
use std::path::{Path, PathBuf};
use std::process::{Command, Output, Stdio};
use std::{env, fs};

/// Seconds after which a witness that has not ended counts as one that has seen the mutant.
const LIMIT: &str = "60";

/// So that a mutant is built in a second and not in several, and still runs fast enough.
const PROFILE: [(&str, &str); 3] = [
    ("CARGO_PROFILE_RELEASE_OPT_LEVEL", "1"),
    ("CARGO_PROFILE_RELEASE_INCREMENTAL", "true"),
    ("CARGO_PROFILE_RELEASE_DEBUG", "false"),
];

/// Changes that the compiler takes for slips are to be built and run as they stand.
const ALLOWED: &str = "-A overflowing-literals -A arithmetic-overflow -A unconditional-panic";

/// What cargo ends with where a source does not compile.
const NOT_COMPILED: i32 = 101;
/// What `timeout` ends with where the program could not be started.
const NOT_STARTED: std::ops::RangeInclusive<i32> = 125..=127;

pub struct Workshop {
    /// The copy of `host/`.
    host: PathBuf,
}

impl Workshop {
    /// Copies `host/` into the folder. Its programs look for the proved programs' lines beside it, and
    /// the doubles of the tool and of `sequences` for the lines of their version.
    pub fn open(repository: &Path, folder: &Path) -> Result<Workshop, String> {
        let host = folder.join("host");
        copy(&repository.join("host"), &host)?;
        for beside in ["crates", "VERSION", "KIT"] {
            symlink(repository.join(beside), folder.join(beside)).map_err(told(folder))?;
        }
        Ok(Workshop { host })
    }

    /// Insists that every witness accepts the codec as it is; else none of them would be one.
    pub fn try_unchanged(&self) -> Result<(), String> {
        for witness in &WITNESSES {
            let name = witness.name;
            let built = self.build(witness)?;
            if !built.status.success() {
                let why = String::from_utf8_lossy(&built.stderr).into_owned();
                return Err(format!("{name} cannot be built:\n{why}"));
            }
            if !self.accepts(witness)? {
                return Err(format!("{name} refuses the second codec as it is"));
            }
        }
        Ok(())
    }

    pub fn judge(&self, mutant: &Mutant) -> Result<Verdict, String> {
        let place = self.host.join("second/src").join(&mutant.identity.file);
        let original = fs::read_to_string(&place).map_err(told(&place))?;
        fs::write(&place, mutant.applied(&original)).map_err(told(&place))?;
        let verdict = self.shown_to_all()?;
        fs::write(&place, original).map_err(told(&place))?;
        Ok(verdict)
    }

    fn shown_to_all(&self) -> Result<Verdict, String> {
        for witness in &WITNESSES {
            match self.build(witness)?.status.code() {
                Some(0) => {}
                Some(NOT_COMPILED) => return Ok(Verdict::NotBuilt),
                _ => return Err("cargo was stopped".to_string()),
            }
            if !self.accepts(witness)? {
                return Ok(Verdict::Seen(witness.name));
            }
        }
        Ok(Verdict::Unseen)
    }

    fn build(&self, witness: &Witness) -> Result<Output, String> {
        let cargo = env::var_os("CARGO").unwrap_or("cargo".into());
        Command::new(cargo)
            .args(["build", "--release", "--offline", "--quiet", "--jobs", "1"])
            .args(witness.build)
            .envs(PROFILE)
            .env("RUSTFLAGS", ALLOWED)
            .env("CARGO_TARGET_DIR", "target")
            .current_dir(&self.host)
            .output()
            .map_err(|error| format!("cargo cannot be started: {error}"))
    }

    /// A panic, an abort and the time limit are refusals too. `timeout` ends all that the witness
    /// has started.
    fn accepts(&self, witness: &Witness) -> Result<bool, String> {
        let status = Command::new("timeout")
            .args(["-s", "KILL", LIMIT])
            .args(witness.run)
            .env("RUST_BACKTRACE", "0")
            .current_dir(&self.host)
            .stdin(Stdio::null())
            .stdout(Stdio::null())
            .stderr(Stdio::null())
            .status()
            .map_err(|error| format!("timeout cannot be started: {error}"))?;
        match status.code() {
            Some(code) if NOT_STARTED.contains(&code) => {
                Err(format!("{} cannot be started", witness.name))
            }
            code => Ok(code == Some(0)),
        }
    }
}

/// Without what was built there.
fn copy(from: &Path, to: &Path) -> Result<(), String> {
    fs::create_dir_all(to).map_err(told(to))?;
    for entry in fs::read_dir(from).map_err(told(from))? {
        let entry = entry.map_err(told(from))?;
        let (source, target) = (entry.path(), to.join(entry.file_name()));
        if source.is_dir() && entry.file_name() != "target" {
            copy(&source, &target)?;
        } else if source.is_file() {
            fs::copy(&source, &target).map_err(told(&source))?;
        }
    }
    Ok(())
}
