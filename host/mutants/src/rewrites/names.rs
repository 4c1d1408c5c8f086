//! Names that could be mistaken for each other: A1 and A2, SE and SEZ, both editions, a state's core and number, the fields of
//! a pair.

use super::{replaced, Edit};
use crate::scanner::Kind;
use crate::source::Source;

const PAIRS: [(&str, &str); 8] = [
    ("true", "false"),
    ("min", "max"),
    ("wrapping_add", "wrapping_sub"),
    ("se", "sez"),
    ("dms", "dml"),
    ("dmsp", "dmlp"),
    ("one_up", "one_down"),
    ("PLAIN", "NUMBERED"),
];

pub fn edits(source: &Source, place: usize) -> Vec<Edit> {
    if is_declared_here(source, place) {
        return Vec::new();
    }
    let word = source.word(place);
    let other = if source.is(place, Kind::Word) {
        partner(word)
            .or_else(|| neighbour(source, word))
            .or_else(|| of_state(source, place))
    } else if source.before(place) == "." {
        exchanged(word, "0", "1")
    } else {
        None
    };
    replaced(source, place, &Vec::from_iter(other))
}

fn exchanged(word: &str, one: &str, two: &str) -> Option<String> {
    let both = [(one, two), (two, one)];
    let found = both.into_iter().find(|(from, _)| *from == word);
    found.map(|(_, to)| to.to_string())
}

fn partner(word: &str) -> Option<String> {
    PAIRS
        .iter()
        .find_map(|(one, two)| exchanged(word, one, two))
}

/// The name with 1 for 2 at its end or 2 for 1, where the source has such a name.
fn neighbour(source: &Source, word: &str) -> Option<String> {
    let stem = word.strip_suffix(['1', '2'])?;
    let other = exchanged(word, &format!("{stem}1"), &format!("{stem}2"))?;
    let is_known = (0..source.count()).any(|place| source.word(place) == other);
    is_known.then_some(other)
}

/// Elsewhere these two names are those of things of unlike types.
fn of_state(source: &Source, place: usize) -> Option<String> {
    let whose = source.before(place.wrapping_sub(1));
    let is_field = source.before(place) == "." && ["state", "last"].contains(&whose);
    exchanged(source.word(place), "core", "number").filter(|_| is_field)
}

/// A field that is given its value: exchanged, it would be given twice. One word alone between braces
/// is the value of a block.
fn is_declared_here(source: &Source, place: usize) -> bool {
    let sides = (source.before(place), source.after(place));
    let is_short = matches!(sides, ("{" | ",", ",") | (",", "}"));
    sides.1 == ":" || is_short && source.innermost(place) == "{"
}

#[cfg(test)]
mod tests {
    use super::super::tests::made;
    use super::*;

    #[test]
    fn both_of_a_pair_are_exchanged() {
        for (one, two) in PAIRS {
            assert_eq!(made(edits, one), [two]);
            assert_eq!(made(edits, two), [one]);
        }
    }

    #[test]
    fn last_digits_are_exchanged_where_both_names_are_there() {
        assert_eq!(
            made(edits, "f(pk1, s.pk2)"),
            ["f(pk2, s.pk2)", "f(pk1, s.pk1)"]
        );
        assert_eq!(made(edits, "f(b1, b3)"), [""; 0]);
    }

    #[test]
    fn fields_of_a_pair_are_exchanged() {
        assert_eq!(made(edits, "f(a.0, a.1)"), ["f(a.1, a.1)", "f(a.0, a.0)"]);
        assert_eq!(made(edits, "f(0, 1)"), [""; 0]);
    }

    #[test]
    fn core_and_number_of_a_state_are_exchanged() {
        assert_eq!(
            made(edits, "f(state.core, last.number)"),
            ["f(state.number, last.number)", "f(state.core, last.core)"]
        );
        assert_eq!(made(edits, "f(header.core, number, core)"), [""; 0]);
    }

    #[test]
    fn fields_that_are_given_values_stay() {
        assert_eq!(
            made(edits, "S { sr1: a, sr2: s.sr1 }"),
            ["S { sr1: a, sr2: s.sr2 }"]
        );
        assert_eq!(made(edits, "E { y, se, sez }"), [""; 0]);
        assert_eq!(made(edits, "{ f(se, sez) }").len(), 2);
        assert_eq!(made(edits, "{ se }"), ["{ sez }"]);
    }
}
