//! What is printed: one line for a sequence, or one for each of its samples.

use crate::checksum;
use crate::files::Inputs;
use crate::names::{self, Sequence};
use crate::play::{play, Played, Sample};

/// The end of the line of a sequence whose encoder and decoder have parted, which is a failure.
pub const STATES_DIFFER: &str = "states differ";

/// `NAME SAMPLES CODEWORDS BYTES STATE`.
pub fn line(name: &str, played: &Played) -> String {
    let samples = &played.samples;
    let last = samples.last().expect("no sequence is empty");
    if !played.in_step {
        return format!("{name} {STATES_DIFFER}");
    }
    format!(
        "{name} {} {} {} {}",
        samples.len(),
        checksum::of_octets(samples.iter().map(|sample| sample.codeword)),
        checksum::of_octets(samples.iter().map(|sample| sample.byte)),
        checksum::of_state(&last.state)
    )
}

pub fn lines(inputs: &Inputs) -> Vec<String> {
    names::all()
        .iter()
        .map(|sequence| line(&sequence.name(), &play(sequence, inputs)))
        .collect()
}

/// `INDEX IN CODEWORD BYTE DISAGREES STATECHECKSUM` for each sample, counted from 0.
pub fn dump(sequence: &Sequence, inputs: &Inputs) -> Vec<String> {
    let samples = play(sequence, inputs).samples;
    samples.iter().enumerate().map(sample_line).collect()
}

fn sample_line((index, sample): (usize, &Sample)) -> String {
    let octet = match sample.octet {
        Some(octet) => octet.to_string(),
        None => "-".to_string(),
    };
    format!(
        "{index} {octet} {} {} {} {}",
        sample.codeword,
        sample.byte,
        u8::from(sample.disagrees),
        checksum::of_state(&sample.state)
    )
}
