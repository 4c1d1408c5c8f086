//! Writes the eight files of PCM inputs.

use sequences::files::Inputs;
use std::process::ExitCode;

fn main() -> ExitCode {
    match Inputs::made().write() {
        Ok(()) => ExitCode::SUCCESS,
        Err(why) => {
            eprintln!("make: {why}");
            ExitCode::FAILURE
        }
    }
}
