//! Prints a line for each sample of one sequence, to find the first that another codec has
//! differently.

use sequences::files::Inputs;
use sequences::lines::dump;
use sequences::names::{Sequence, HOW_NAMES_ARE_MADE};
use sequences::output::print;
use std::process::ExitCode;

fn main() -> ExitCode {
    let arguments: Vec<String> = std::env::args().skip(1).collect();
    let [name] = arguments.as_slice() else {
        eprintln!("dump: one name is due: {HOW_NAMES_ARE_MADE}");
        return ExitCode::from(2);
    };
    let Some(sequence) = Sequence::named(name) else {
        eprintln!(
            "dump: no sequence has the name {name:?}; names are made so: {HOW_NAMES_ARE_MADE}"
        );
        return ExitCode::from(2);
    };
    match dumped(&sequence) {
        Ok(()) => ExitCode::SUCCESS,
        Err(why) => {
            eprintln!("dump: {why}");
            ExitCode::FAILURE
        }
    }
}

fn dumped(sequence: &Sequence) -> Result<(), String> {
    let lines = dump(sequence, &Inputs::read()?);
    print(&lines).map_err(|why| why.to_string())
}
