//! stand-ins FOLDER: writes a file for each one of the ITU's diskettes into the folder.

use sequences::files::Inputs;
use sequences::stand_ins;
use std::path::Path;
use std::process::ExitCode;

fn main() -> ExitCode {
    let words: Vec<_> = std::env::args_os().skip(1).collect();
    let [folder] = words.as_slice() else {
        eprintln!("how it is called: stand-ins FOLDER");
        return ExitCode::from(2);
    };
    let written = Inputs::read().and_then(|inputs| stand_ins::write(Path::new(folder), &inputs));
    match written {
        Ok(count) => {
            println!("stand-ins: {count} files in {}", folder.to_string_lossy());
            ExitCode::SUCCESS
        }
        Err(why) => {
            eprintln!("stand-ins: {why}");
            ExitCode::FAILURE
        }
    }
}
