//! Prints the second codec's line for each sequence. Ends with 1 where an encoder and its decoder
//! parted.

use sequences::files::Inputs;
use sequences::lines::{lines, STATES_DIFFER};
use sequences::output::print;
use std::process::ExitCode;

fn main() -> ExitCode {
    match run() {
        Ok(true) => ExitCode::SUCCESS,
        Ok(false) => ExitCode::FAILURE,
        Err(why) => {
            eprintln!("run: {why}");
            ExitCode::FAILURE
        }
    }
}

/// Whether all encoders and decoders stayed in step.
fn run() -> Result<bool, String> {
    let lines = lines(&Inputs::read()?);
    print(&lines).map_err(|why| why.to_string())?;
    Ok(!lines.iter().any(|line| line.ends_with(STATES_DIFFER)))
}
