//! What came of a pair: the prover's word, and what each program wrote beside what it should have written.

use std::fmt;

#[derive(Debug, PartialEq, Eq)]
pub enum Outcome {
    /// A crate above or at the change is no longer proved; the first error's place.
    Refused(String),
    /// All was proved, and these programs wrote something else.
    Noticed(Vec<String>),
    Unnoticed,
}

impl fmt::Display for Outcome {
    fn fmt(&self, f: &mut fmt::Formatter) -> fmt::Result {
        match self {
            Outcome::Refused(place) => write!(f, "refused by the prover: {place}"),
            Outcome::Noticed(by) => write!(f, "proved; noticed by {}", by.join("; ")),
            Outcome::Unnoticed => write!(f, "PROVED, AND NO RUN NOTICED"),
        }
    }
}

/// How many lines differ, and where the first of them stands: behind which group's first line, or by its first word.
pub fn difference(due: &str, found: &str) -> Option<String> {
    let (due, found): (Vec<&str>, Vec<&str>) = (due.lines().collect(), found.lines().collect());
    let length = due.len().max(found.len());
    let differs = |place: &usize| due.get(*place) != found.get(*place);
    let places: Vec<usize> = (0..length).filter(differs).collect();
    let first = *places.first()?;
    let count = places.len();
    Some(format!("{count} lines, first {}", place_of(&due, first)))
}

fn place_of(lines: &[&str], place: usize) -> String {
    let before = lines[..place.min(lines.len())].iter();
    let named = before.rev().find_map(|line| group_of(line));
    let word = lines.get(place).and_then(|line| line.split(' ').next());
    match (named, word) {
        (Some(group), _) => format!("in group {group} (line {})", place + 1),
        (None, Some(word)) => word.to_string(),
        (None, None) => format!("line {}", place + 1),
    }
}

fn group_of(line: &str) -> Option<&str> {
    line.strip_prefix("# group ")?.split(':').next()
}

#[cfg(test)]
mod tests {
    use super::*;

    #[test]
    fn lines_that_differ_are_counted_and_placed() {
        assert_eq!(difference("a 1\nb 2\n", "a 1\nb 2\n"), None);
        let found = difference("a 1\nb 2\nc 3\n", "a 1\nb 3\nc 4\n");
        assert_eq!(found.as_deref(), Some("2 lines, first b"));
        let found = difference("# group x: why\nb 2\n", "# group x: why\nb 3\n");
        assert_eq!(found.as_deref(), Some("1 lines, first in group x (line 2)"));
        assert_eq!(
            difference("a", "a\nb").as_deref(),
            Some("1 lines, first line 2")
        );
    }
}
