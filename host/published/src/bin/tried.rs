//! tried PROGRAM: holds PROGRAM to the stand-ins for all published files, and tries that a change to one
//! of them is told. Ends with 1 at the first thing that is not as it has to be.

use published::trial::tried;
use std::env;
use std::process::ExitCode;

fn main() -> ExitCode {
    let words: Vec<String> = env::args().skip(1).collect();
    let [program] = words.as_slice() else {
        eprintln!("how it is called: tried PROGRAM");
        return ExitCode::from(2);
    };
    match tried(program) {
        Ok(line) => {
            println!("tried: {line}");
            ExitCode::SUCCESS
        }
        Err(line) => {
            println!("tried: {line}");
            ExitCode::FAILURE
        }
    }
}
