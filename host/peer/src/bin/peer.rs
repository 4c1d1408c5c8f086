//! Compares the second codec at (2,2) with spandsp's G.726 at 16 kbit/s: codes, decoded bytes and
//! states, under both laws. Ends with a nonzero code at the first disagreement.

use std::process::ExitCode;

#[cfg(not(spandsp))]
fn main() -> ExitCode {
    println!(
        "peer: libspandsp-dev is not installed, so the comparison with spandsp was not run \
         (packages: libspandsp-dev, asterisk-core-sounds-en-wav)"
    );
    ExitCode::SUCCESS
}

#[cfg(spandsp)]
fn main() -> ExitCode {
    match peer::agreement::compare_everything() {
        Ok(total) => {
            println!("peer: {} samples, no difference", total.samples);
            ExitCode::SUCCESS
        }
        Err(disagreement) => {
            println!("peer: DISAGREEMENT: {disagreement}");
            ExitCode::FAILURE
        }
    }
}
