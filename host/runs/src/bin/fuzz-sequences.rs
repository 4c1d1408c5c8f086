//! fuzz-sequences COUNT SEED PROGRAM DOUBLE: does some fixed calls of `sequences` and COUNT drawn ones
//! with both programs, and ends with 1 where they differ.

use runs::fuzz::{contest, sequences};
use std::process::ExitCode;

fn main() -> ExitCode {
    contest::run("fuzz-sequences", &sequences::calls())
}
