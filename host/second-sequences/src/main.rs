//! The second program `sequences`: the words, octets, lines and statuses of the proved one, made of the
//! second codec and of its reader and writer of whole texts. Stored runs are held to both.

mod call;
mod run;
mod taken;

use filter::program::Program;
use std::process::ExitCode;

const PROGRAM: Program = Program {
    name: "sequences",
    help: include_str!("../../runs/stored-sequences/help.txt"),
    usage: include_str!("../../runs/stored-sequences/usage.txt"),
};

fn main() -> ExitCode {
    PROGRAM.run(call::job, run::run)
}
