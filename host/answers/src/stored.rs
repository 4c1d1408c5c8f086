//! The stored calls and answers: what the proved program reads and what it has to write.

use crate::answer::answer;
use crate::groups;
use std::fs;

/// The calls, from the folder of this crate.
pub const ASKED: &str = concat!(env!("CARGO_MANIFEST_DIR"), "/../../crates/answers/stdin");
/// The second codec's answers to them.
pub const ANSWERED: &str = concat!(env!("CARGO_MANIFEST_DIR"), "/../../crates/answers/stdout");

pub fn read(path: &str) -> Result<String, String> {
    fs::read_to_string(path).map_err(|why| format!("{path}: {why}"))
}

/// Writes the calls of all groups, and the second codec's answers.
pub fn write() -> Result<usize, String> {
    let asked = groups::all().text();
    let put =
        |path: &str, text: &str| fs::write(path, text).map_err(|why| format!("{path}: {why}"));
    put(ASKED, &asked)?;
    put(ANSWERED, &answer(&asked))?;
    Ok(asked.lines().count())
}

/// Holds the second codec to the stored answers, whatever calls it would have had made.
pub fn compare() -> Result<usize, String> {
    let (asked, answered) = (read(ASKED)?, read(ANSWERED)?);
    agree(
        "stdout",
        "the second codec's answers",
        &answer(&asked),
        &answered,
    )?;
    Ok(asked.lines().count())
}

pub fn agree(file: &str, what: &str, due: &str, found: &str) -> Result<(), String> {
    match first_difference(due, found) {
        None => Ok(()),
        Some(place) => Err(format!(
            "crates/answers/{file} does not have {what}: {place}"
        )),
    }
}

/// The first line in which two texts differ, with its number from 1.
pub fn first_difference(due: &str, found: &str) -> Option<String> {
    let (mut due, mut found) = (due.split('\n'), found.split('\n'));
    let mut number = 0;
    loop {
        number += 1;
        match (due.next(), found.next()) {
            (None, None) => return None,
            (due, found) if due == found => {}
            (due, found) => {
                let shown = |line: Option<&str>| line.unwrap_or("(no line)").to_string();
                let (due, found) = (shown(due), shown(found));
                return Some(format!("line {number}\n  due    {due}\n  found  {found}"));
            }
        }
    }
}

#[cfg(test)]
mod tests {
    use super::*;

    #[test]
    fn the_first_difference_is_placed() {
        assert_eq!(first_difference("a\nb\n", "a\nb\n"), None);
        for (found, place) in [
            ("a\nc\n", "line 2"),
            ("a\nb", "line 3"),
            ("", "line 1"),
            ("a\nb\nc\n", "line 3"),
        ] {
            let line = first_difference("a\nb\n", found).unwrap();
            assert!(line.starts_with(place), "{line}");
        }
    }
}
