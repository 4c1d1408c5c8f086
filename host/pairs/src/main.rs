//! pairs [NAME...]: tries the stored pairs, all or those named, in a copy of the repository, and prints what came of each. Ends
//! with 1 where one was proved and no run noticed it. Each takes minutes: it is run by hand, once `rt check` has proved the programs.

use pairs::outcome::Outcome;
use pairs::pair::{read_all, Pair};
use pairs::trial::outcome;
use std::env;
use std::path::Path;
use std::process::ExitCode;

fn main() -> ExitCode {
    let names: Vec<String> = env::args().skip(1).collect();
    match run(&names) {
        Ok(true) => ExitCode::SUCCESS,
        Ok(false) => ExitCode::FAILURE,
        Err(line) => {
            eprintln!("pairs: {line}");
            ExitCode::FAILURE
        }
    }
}

fn run(names: &[String]) -> Result<bool, String> {
    let here = Path::new(env!("CARGO_MANIFEST_DIR"));
    let all = read_all(&here.join("stored"))?;
    if let Some(name) = names
        .iter()
        .find(|name| !all.iter().any(|pair| pair.name == **name))
    {
        return Err(format!("no pair is named {name}"));
    }
    let asked = |pair: &&Pair| names.is_empty() || names.contains(&pair.name);
    let room = env::temp_dir().join(format!("pairs-{}", std::process::id()));
    let mut all_noticed = true;
    for pair in all.iter().filter(asked) {
        println!("{}: {}", pair.name, pair.what);
        let found = outcome(pair, &here.join("../.."), &room)?;
        println!("  {found}");
        all_noticed &= found != Outcome::Unnoticed;
    }
    let _ = std::fs::remove_dir(&room);
    Ok(all_noticed)
}
