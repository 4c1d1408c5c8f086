//! A file for each one of the ITU's diskettes, under its name (the description, section 5): the inputs
//! are ours, the second codec makes the others, and all are texts.

use crate::codec::Codec;
use crate::codewords::i_input;
use crate::files::{Inputs, Kind};
use crate::names::{self, letter, Input, Sequence, Start, PAIRS};
use crate::play::{fed, Fed};
use second::g711::Law;
use second::text::write_whole;
use std::fs;
use std::path::Path;

#[derive(Clone, Debug, PartialEq, Eq)]
pub struct StandIn {
    pub name: String,
    pub values: Vec<u8>,
}

impl StandIn {
    fn new(name: String, values: Vec<u8>) -> StandIn {
        StandIn { name, values }
    }

    pub fn text(&self) -> Vec<u8> {
        write_whole(&self.values)
    }
}

/// The inputs first.
pub fn all(inputs: &Inputs) -> Vec<StandIn> {
    let named = names::all().into_iter();
    let described = named.filter(|s| !matches!(s.input, Input::Jump | Input::Held));
    let made = described.flat_map(|sequence| of_sequence(&sequence, inputs));
    pcm_inputs(inputs)
        .into_iter()
        .chain((2..=5).map(|width| StandIn::new(format!("I{}", 8 * width), i_input(width))))
        .chain(homed_i_inputs(inputs))
        .chain(made)
        .collect()
}

/// How many were written.
pub fn write(folder: &Path, inputs: &Inputs) -> Result<usize, String> {
    fs::create_dir_all(folder).map_err(|why| format!("{}: {why}", folder.display()))?;
    let all = all(inputs);
    for stand_in in &all {
        let place = folder.join(&stand_in.name);
        fs::write(&place, stand_in.text()).map_err(|why| format!("{}: {why}", place.display()))?;
    }
    Ok(all.len())
}

fn pcm_inputs(inputs: &Inputs) -> Vec<StandIn> {
    let mut found = Vec::new();
    for (stem, kind) in [
        ("NRM", Kind::Normal),
        ("OVR", Kind::Overload),
        ("PCM_INIT", Kind::Homing),
    ] {
        for law in Law::BOTH {
            let octets = inputs.octets(kind, law).to_vec();
            found.push(StandIn::new(format!("{stem}.{}", letter(law)), octets));
        }
    }
    found
}

/// The codewords of a decoder's homing and its I-input, end to end.
fn homed_i_inputs(inputs: &Inputs) -> Vec<StandIn> {
    let mut found = Vec::new();
    for (width, core) in PAIRS {
        for law in Law::BOTH {
            let encoder = Codec { law, width, core };
            let homing = encoder.encode(&[], inputs.octets(Kind::Homing, law));
            let name = format!("I_INIT{width}{core}.{}", letter(law));
            found.push(StandIn::new(name, [homing, i_input(width)].concat()));
        }
    }
    found
}

/// What the two ends make of a sequence's input, each homed by its own law: codewords, where a file has
/// them, and PCM values.
fn of_sequence(sequence: &Sequence, inputs: &Inputs) -> Vec<StandIn> {
    let name = sequence.name();
    let end = |law| Codec {
        law,
        width: sequence.width,
        core: sequence.core,
    };
    let homing = |law| match sequence.start {
        Start::Reset => &[],
        Start::Homed => inputs.octets(Kind::Homing, law),
    };
    let (law_in, law_out) = (sequence.law_in, sequence.law_out);
    let mut found = Vec::new();
    let codewords = match fed(sequence, inputs) {
        Fed::Codewords(codewords) => codewords,
        Fed::Octets(pcm) => {
            let codewords = end(law_in).encode(homing(law_in), pcm);
            // Across laws the codewords are those of the encoder's law, and have their file there.
            if law_in == law_out {
                found.push(StandIn::new(format!("{name}.I"), codewords.clone()));
            }
            codewords
        }
    };
    let pcm = end(law_out).decode(homing(law_out), &codewords);
    found.push(StandIn::new(format!("{name}.O"), pcm));
    found
}
