//! diskettes PROGRAM FOLDER: holds PROGRAM, which has the words of `sequences`, to the published files
//! in FOLDER and in the folders in it. Ends with 1 where one differs, or where there is none.

use published::check::check;
use std::env;
use std::io::{stdout, Write};
use std::path::Path;
use std::process::ExitCode;

fn main() -> ExitCode {
    let words: Vec<_> = env::args_os().skip(1).collect();
    let [program, folder] = words.as_slice() else {
        eprintln!("how it is called: diskettes PROGRAM FOLDER");
        return ExitCode::from(2);
    };
    match check(&program.to_string_lossy(), Path::new(folder), &mut say) {
        Ok(true) => ExitCode::SUCCESS,
        Ok(false) => ExitCode::FAILURE,
        Err(line) => {
            eprintln!("diskettes: {line}");
            ExitCode::FAILURE
        }
    }
}

fn say(line: &str) -> Result<(), String> {
    let said = writeln!(stdout(), "{line}");
    said.map_err(|why| format!("cannot write standard output: {why}"))
}
