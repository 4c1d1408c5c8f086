//! Compares the second codec's lines with the proved codec's.

use sequences::compare::{first_difference, Difference};
use sequences::files::{in_repository, Inputs};
use sequences::lines::lines;
use std::fs::read_to_string;
use std::process::ExitCode;

/// From the root of the repository.
const PROVED: &str = "crates/vectors/stdout";
const DUMP: &str = "cargo run --release --offline --quiet --manifest-path host/Cargo.toml \
                    -p sequences --bin dump --";

fn main() -> ExitCode {
    match read_to_string(in_repository(PROVED)) {
        Ok(text) => compared(&text),
        Err(why) => failed(&format!("{PROVED}: {why}")),
    }
}

fn compared(text: &str) -> ExitCode {
    let lines = match Inputs::read() {
        Ok(inputs) => lines(&inputs),
        Err(why) => return failed(&why),
    };
    match first_difference(&lines, text) {
        None => {
            println!("sequences: {} lines agree with {PROVED}", lines.len());
            ExitCode::SUCCESS
        }
        Some(difference) => failed(&told(&difference)),
    }
}

fn failed(why: &str) -> ExitCode {
    println!("sequences: {why}");
    ExitCode::FAILURE
}

fn told(difference: &Difference) -> String {
    let Difference { name, ours, theirs } = difference;
    format!(
        "{name} is the first sequence that differs\n\
         second codec: {ours}\n\
         proved codec: {theirs}\n\
         the first sample that differs, where OTHER is the proved codec's dump of {name}:\n\
         {DUMP} {name} | diff - OTHER | head -n 4"
    )
}
