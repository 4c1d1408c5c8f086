//! One pair tried: a copy of the crates, the edits, each program proved, built and run, and its output beside the stored one.

use crate::outcome::{difference, Outcome};
use crate::pair::Pair;
use std::fs;
use std::fs::File;
use std::path::{Path, PathBuf};
use std::process::{Command, Stdio};

/// The programs that are run, and whose output has to notice.
pub const PROGRAMS: [&str; 2] = ["answers", "vectors"];

/// So many characters of an error say where it is and what it speaks of.
const SHOWN: usize = 120;

pub fn outcome(pair: &Pair, root: &Path, room: &Path) -> Result<Outcome, String> {
    let copy = room.join(&pair.name);
    copied(root, &copy)?;
    for (place, text) in pair.wrong_files(&copy.join("crates"))? {
        fs::write(&place, text).map_err(told(&place))?;
    }
    let found = tried(&copy);
    fs::remove_dir_all(&copy).map_err(told(&copy))?;
    found
}

/// The crates alone: `rt` begins with what a check in the checkout has kept, so that only what the pair changes is proved again.
fn copied(root: &Path, copy: &Path) -> Result<(), String> {
    copied_folder(&root.join("crates"), &copy.join("crates"))?;
    let list = root.join("crates.txt");
    fs::copy(&list, copy.join("crates.txt")).map_err(told(&list))?;
    Ok(())
}

/// Without what `rt` has made there.
fn copied_folder(from: &Path, to: &Path) -> Result<(), String> {
    fs::create_dir_all(to).map_err(told(to))?;
    for entry in fs::read_dir(from).map_err(told(from))? {
        let entry = entry.map_err(told(from))?;
        let (source, target) = (entry.path(), to.join(entry.file_name()));
        if source.is_file() {
            fs::copy(&source, &target).map_err(told(&source))?;
        } else if entry.file_name() != "out" {
            copied_folder(&source, &target)?;
        }
    }
    Ok(())
}

fn told(place: &Path) -> impl Fn(std::io::Error) -> String + '_ {
    move |error| format!("{}: {error}", place.display())
}

fn tried(copy: &Path) -> Result<Outcome, String> {
    let mut noticed = Vec::new();
    for program in PROGRAMS {
        let folder = copy.join("crates").join(program);
        if let Some(place) = refused(&folder, program)? {
            return Ok(Outcome::Refused(place));
        }
        let due = folder.join("stdout");
        let due = fs::read_to_string(&due).map_err(told(&due))?;
        noticed.extend(noticed_by(program, &due, &written(&folder, program)?));
    }
    Ok(judged(noticed))
}

/// Builds the program, which is proved before. `rt` runs it too, on nothing and where its files are not.
fn refused(folder: &Path, program: &str) -> Result<Option<String>, String> {
    let built = Command::new("rt")
        .arg("run")
        .current_dir(folder)
        .stdin(Stdio::null())
        .output()
        .map_err(|error| format!("rt cannot be started: {error}"))?;
    if built.status.success() {
        return Ok(None);
    }
    let said = String::from_utf8_lossy(&[built.stdout, built.stderr].concat()).into_owned();
    match place_of(&said, program) {
        Some(place) => Ok(Some(place)),
        None => Err(format!("{program} was not built:\n{said}")),
    }
}

/// What the program writes as `rt ci` runs it: in the folder of its files, where it has some, on the calls that are stored for it.
fn written(folder: &Path, program: &str) -> Result<String, String> {
    let (asked, files): (PathBuf, PathBuf) = (folder.join("stdin"), folder.join("data"));
    let given = match asked.exists() {
        true => Stdio::from(File::open(&asked).map_err(told(&asked))?),
        false => Stdio::null(),
    };
    let ran = Command::new(folder.join("out").join(program))
        .current_dir(if files.exists() { &files } else { folder })
        .stdin(given)
        .output()
        .map_err(told(folder))?;
    Ok(String::from_utf8_lossy(&ran.stdout).into_owned())
}

/// The crate that is not proved, the place in it, and what is not admitted there.
fn place_of(said: &str, program: &str) -> Option<String> {
    let line = [": error", ": no proof", ": not proved"]
        .iter()
        .find_map(|sign| said.lines().find(|line| line.contains(sign)))?;
    let library = said.lines().find_map(|line| {
        let named = line.strip_prefix("rt: the library ")?;
        named.split_once(" did not build").map(|(name, _)| name)
    });
    let line = line.strip_prefix("so far: ").unwrap_or(line);
    let place = format!("{}: {line}", library.unwrap_or(program));
    Some(place.chars().take(SHOWN).collect())
}

fn noticed_by(program: &str, due: &str, found: &str) -> Option<String> {
    difference(due, found).map(|line| format!("{program}: {line}"))
}

fn judged(noticed: Vec<String>) -> Outcome {
    match noticed.is_empty() {
        true => Outcome::Unnoticed,
        false => Outcome::Noticed(noticed),
    }
}

#[cfg(test)]
mod tests {
    use super::*;

    #[test]
    fn a_program_that_writes_what_is_stored_notices_nothing() {
        let same = PROGRAMS
            .iter()
            .filter_map(|it| noticed_by(it, "a 1\n", "a 1\n"));
        assert_eq!(judged(same.collect()), Outcome::Unnoticed);
        let other: Vec<String> = noticed_by("answers", "a 1\n", "a 2\n")
            .into_iter()
            .collect();
        assert_eq!(judged(other.clone()), Outcome::Noticed(other));
        assert!(written(Path::new("no such folder"), "answers").is_err());
    }

    #[test]
    fn what_is_not_proved_is_told_with_its_crate() {
        let said = "rt: chose --jobs 2 for sample\nso far: ./proofs/Ends.antt:9:1: error: `ends`: no\n\
            fn sample::pcm::ends: not proved\nrt: the library sample did not build, so nothing above it was checked\n";
        let place = "sample: ./proofs/Ends.antt:9:1: error: `ends`: no";
        assert_eq!(place_of(said, "answers").as_deref(), Some(place));
        let said = "fn vectors::main: no proof: `search` did not prove `returns`\n";
        assert!(place_of(said, "vectors").is_some_and(|place| place.starts_with("vectors: fn")));
        assert_eq!(place_of("rt: cannot do so\n", "vectors"), None);
    }
}
