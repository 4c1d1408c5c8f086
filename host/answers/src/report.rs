//! The stored calls at a glance: whether they and their answers are as they are made, and how many calls got each reply or
//! verdict.

use crate::groups;
use crate::page::Item;
use crate::stored::{agree, compare, read, ANSWERED, ASKED};
use std::collections::BTreeMap;
use std::fmt;

/// A call that says in its answer's first field how it went, what that is called, and all that it can say; the stored calls
/// have to show each of them.
type Saying = (&'static str, &'static str, &'static [&'static str]);

const SAYINGS: [Saying; 7] = [
    ("reset", "reply", &["0", "1"]),
    ("encode", "reply", &["0", "1", "2", "3", "4", "5", "9"]),
    (
        "encode_linear",
        "reply",
        &["0", "1", "2", "3", "4", "5", "11"],
    ),
    (
        "decode",
        "reply",
        &["0", "1", "2", "3", "4", "5", "6", "7", "9", "10"],
    ),
    (
        "decode_linear",
        "reply",
        &["0", "1", "2", "3", "4", "5", "6", "7", "10"],
    ),
    ("drop", "reply", &["0", "1", "2", "3", "5", "6", "8"]),
    ("end_text", "verdict", &["0", "1", "2", "3", "4"]),
];

/// Calls whose answer's first field is something else; the stored calls have to show each call.
const OTHERS: [&str; 3] = ["read", "write", "end_values"];

#[derive(Debug)]
pub struct Report {
    pub groups: usize,
    pub levels: usize,
    /// By call and what it says; nothing for one of the others.
    counts: BTreeMap<(String, String), usize>,
}

/// The report on what is stored, or the first line that is not as it is made.
pub fn check() -> Result<Report, String> {
    let page = groups::all();
    agree("stdin", "the groups' calls", &page.text(), &read(ASKED)?)?;
    compare()?;
    let is_group = |item: &&Item| matches!(item, Item::Group(..));
    let report = counted(&read(ANSWERED)?, page.items.iter().filter(is_group).count());
    match report.missing() {
        None => Ok(report),
        Some((call, "")) => Err(format!("no {call} is stored")),
        Some((call, said)) => Err(format!("no stored {call} is answered {said}")),
    }
}

fn counted(answered: &str, groups: usize) -> Report {
    let mut report = Report {
        groups,
        levels: 0,
        counts: BTreeMap::new(),
    };
    for (call, first) in answered.lines().filter_map(call_and_first) {
        if call == "level" {
            report.levels += 1;
            continue;
        }
        let said = if OTHERS.contains(&call) { "" } else { first };
        let key = (call.to_string(), said.to_string());
        *report.counts.entry(key).or_insert(0) += 1;
    }
    report
}

/// A call's word, and the first field of its answer.
fn call_and_first(line: &str) -> Option<(&str, &str)> {
    let (asked, answer) = line.split_once(" = ").filter(|_| !line.starts_with('#'))?;
    Some((asked.split(' ').next()?, answer.split(' ').next()?))
}

impl Report {
    fn count(&self, call: &str, said: &str) -> usize {
        let key = (call.to_string(), said.to_string());
        self.counts.get(&key).copied().unwrap_or(0)
    }

    fn missing(&self) -> Option<(&'static str, &'static str)> {
        SAYINGS
            .iter()
            .flat_map(|&(call, _, all)| all.iter().map(move |&said| (call, said)))
            .chain(OTHERS.map(|call| (call, "")))
            .find(|(call, said)| self.count(call, said) == 0)
    }
}

impl fmt::Display for Report {
    fn fmt(&self, f: &mut fmt::Formatter) -> fmt::Result {
        let calls: usize = self.counts.values().sum();
        let (groups, levels) = (self.groups, self.levels);
        write!(
            f,
            "answers: {calls} calls and {levels} levels in {groups} groups, answered by the second codec as stored:"
        )?;
        for (call, what, all) in SAYINGS {
            let total: usize = all.iter().map(|said| self.count(call, said)).sum();
            write!(f, "\n  {call} {total} ({what}:calls")?;
            for said in all {
                write!(f, " {said}:{}", self.count(call, said))?;
            }
            write!(f, ")")?;
        }
        for call in OTHERS {
            write!(f, "\n  {call} {}", self.count(call, ""))?;
        }
        Ok(())
    }
}

#[cfg(test)]
mod tests {
    use super::*;

    #[test]
    fn what_never_occurs_is_told() {
        let stored = read(ANSWERED).expect("the stored answers");
        for (call, said) in [
            ("encode", "5"),
            ("encode_linear", "11"),
            ("decode", "10"),
            ("decode_linear", "10"),
            ("drop", "8"),
            ("end_text", "0"),
            ("end_text", "4"),
        ] {
            let others = |line: &&str| call_and_first(line) != Some((call, said));
            let fewer: Vec<&str> = stored.lines().filter(others).collect();
            let report = counted(&fewer.join("\n"), 0);
            assert_eq!(report.missing(), Some((call, said)));
        }
        assert_eq!(counted(&stored, 0).missing(), None);
    }
}
