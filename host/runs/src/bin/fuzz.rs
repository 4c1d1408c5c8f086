//! fuzz COUNT SEED TOOL DOUBLE: does some fixed calls of the tool and COUNT drawn ones with both
//! programs, and ends with 1 where they differ.

use runs::fuzz::{contest, of_tool};
use std::process::ExitCode;

fn main() -> ExitCode {
    contest::run("fuzz", &of_tool())
}
