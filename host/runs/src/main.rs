//! runs FOLDER COMMAND...: does every run that is stored in the folder with the program that COMMAND
//! starts, and ends with 1 where one of them differs.

use runs::compare::difference;
use runs::perform::perform;
use runs::stored::read_all;
use std::env;
use std::path::Path;
use std::process::ExitCode;
use tool::Tool;

fn main() -> ExitCode {
    let words: Vec<String> = env::args().skip(1).collect();
    let [folder, command @ ..] = words.as_slice() else {
        eprintln!("how it is called: runs FOLDER COMMAND...");
        return ExitCode::from(2);
    };
    let tool = Tool {
        command: command.to_vec(),
    };
    match compare(Path::new(folder), &tool) {
        Ok(true) => ExitCode::SUCCESS,
        Ok(false) => ExitCode::FAILURE,
        Err(line) => {
            eprintln!("runs: {line}");
            ExitCode::FAILURE
        }
    }
}

fn compare(folder: &Path, tool: &Tool) -> Result<bool, String> {
    let runs = read_all(folder)?;
    let mut differing = 0;
    for run in &runs {
        if let Some(line) = difference(&run.due, &perform(tool, &run.given)?) {
            println!("runs: {} ({}): {line}", run.name, run.given.call());
            differing += 1;
        }
    }
    let program = tool.command.join(" ");
    println!(
        "runs: {} of {} as stored ({program})",
        runs.len() - differing,
        runs.len()
    );
    Ok(differing == 0)
}
