//! mutants [--list] [--jobs N] [FILE | FOLDER | NUMBER]: builds every mutant of the second codec, or
//! those of one source or folder of sources, or one, shows each to the witnesses, and prints those that
//! nothing saw. With --list it builds none and lists them. Ends with 0 only where every unseen mutant is
//! listed as equivalent in equivalents.txt and every one listed there is still there and unseen.

use mutants::catalog;
use mutants::choice::Choice;
use mutants::equivalents::{self, Equivalent};
use mutants::mutant::Mutant;
use mutants::progress::Progress;
use mutants::report::Report;
use mutants::verdict::{at_once, verdicts, Verdict};
use mutants::workshop::Workshop;
use std::path::{Path, PathBuf};
use std::process::ExitCode;
use std::{env, fs, thread};

const HOW: &str = "called as: mutants [--list] [--jobs N] [FILE | FOLDER | NUMBER]";

struct Call {
    only_list: bool,
    jobs: usize,
    choice: Choice,
}

fn main() -> ExitCode {
    let words: Vec<String> = env::args().skip(1).collect();
    match parse(&words).and_then(|call| perform(&call)) {
        Ok(true) => ExitCode::SUCCESS,
        Ok(false) => ExitCode::FAILURE,
        Err(line) => {
            eprintln!("mutants: {line}");
            ExitCode::from(2)
        }
    }
}

fn parse(words: &[String]) -> Result<Call, String> {
    let mut call = Call {
        only_list: false,
        jobs: thread::available_parallelism().map_or(1, usize::from),
        choice: Choice::All,
    };
    let mut rest = words.iter();
    while let Some(word) = rest.next() {
        match word.as_str() {
            "--list" => call.only_list = true,
            "--jobs" => call.jobs = count(rest.next())?,
            word if word.starts_with('-') => return Err(HOW.to_string()),
            word => call.choice = Choice::of(word),
        }
    }
    Ok(call)
}

fn count(word: Option<&String>) -> Result<usize, String> {
    let number = word.and_then(|word| word.parse().ok());
    number.filter(|&number| number > 0).ok_or(HOW.to_string())
}

fn perform(call: &Call) -> Result<bool, String> {
    let repository = Path::new(env!("CARGO_MANIFEST_DIR")).join("../..");
    let all = catalog::all(&repository.join("host/second/src"))?;
    let chosen = call.choice.among(all);
    if chosen.is_empty() {
        return Err("no such source, folder or number".to_string());
    }
    if call.only_list {
        list(&chosen);
        return Ok(true);
    }
    let listed = equivalents::parse(equivalents::LISTED)?;
    let covered: Vec<&Equivalent> = listed
        .iter()
        .filter(|entry| call.choice.covers(&entry.identity, &chosen))
        .collect();
    let verdicts = judged(&repository, &chosen, call.jobs.min(chosen.len()))?;
    let report = Report::new(&chosen, &verdicts, &covered);
    println!("{report}");
    Ok(report.is_good())
}

fn list(mutants: &[Mutant]) {
    for mutant in mutants {
        let Mutant {
            identity,
            number,
            line_number,
            ..
        } = mutant;
        println!("{number} (line {line_number}) {identity}");
    }
}

fn judged(repository: &Path, chosen: &[Mutant], jobs: usize) -> Result<Vec<Verdict>, String> {
    let folder = env::temp_dir().join(format!("parchfennel-mutants-{}", std::process::id()));
    let result = opened(repository, &folder, jobs).and_then(|workshops| {
        let progress = Progress::new(chosen.len());
        let judge = |workshop| move |mutant: &Mutant| Workshop::judge(workshop, mutant);
        let judges = workshops.iter().map(judge).collect();
        verdicts(chosen, judges, &|verdict| progress.tell(verdict))
    });
    // What could not be removed stays in the folder for temporary files.
    let _ = fs::remove_dir_all(&folder);
    result
}

/// So many workshops, in each of which the witnesses have accepted the codec as it is.
fn opened(repository: &Path, folder: &Path, count: usize) -> Result<Vec<Workshop>, String> {
    eprintln!("the second codec as it is");
    let folders: Vec<PathBuf> = (0..count).map(|at| folder.join(at.to_string())).collect();
    at_once(folders, &|folder| {
        let workshop = Workshop::open(repository, &folder)?;
        workshop.try_unchanged()?;
        Ok(vec![workshop])
    })
}

#[cfg(test)]
mod tests {
    use super::*;

    fn read(words: &str) -> Result<Call, String> {
        let words: Vec<String> = words.split_whitespace().map(str::to_string).collect();
        parse(&words)
    }

    #[test]
    fn words_are_read() {
        let call = read("--jobs 3 predictor --list").unwrap();
        assert_eq!(call.choice, Choice::of("predictor"));
        assert!(call.only_list && call.jobs == 3);
        let plain = read("").unwrap();
        assert!(!plain.only_list && plain.jobs > 0 && plain.choice == Choice::All);
    }

    #[test]
    fn wrong_words_are_told() {
        for words in ["--jobs", "--jobs 0", "--jobs x", "--what"] {
            assert_eq!(read(words).err(), Some(HOW.to_string()));
        }
    }
}
