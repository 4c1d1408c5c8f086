//! The second tool: the words, octets, lines and statuses of the proved one (docs/TOOL.md), made of
//! the second codec. Stored runs are held to both, and measurements are taken of both.

mod call;
mod input;
mod list;
mod run;
mod sound;
mod stop;
mod totals;
mod work;

use filter::program::Program;
use std::process::ExitCode;

const PROGRAM: Program = Program {
    name: "parchfennel",
    help: include_str!("../../runs/stored/help.txt"),
    usage: include_str!("../../runs/stored/usage.txt"),
};

fn main() -> ExitCode {
    PROGRAM.run(call::job, run::run)
}
