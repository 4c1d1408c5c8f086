//! Operators: comparisons, sums, products, shifts and bits exchanged, signs and negations dropped, and
//! the ends of ranges.

use super::{replaced, Edit};
use crate::scanner::Kind;
use crate::source::Source;

/// What stands between two operands, and what may take its place.
const BETWEEN: [(&str, &[&str]); 20] = [
    ("<", &["<=", ">"]),
    ("<=", &["<", ">="]),
    (">", &[">=", "<"]),
    (">=", &[">", "<="]),
    ("==", &["!="]),
    ("!=", &["=="]),
    ("+", &["-"]),
    ("-", &["+"]),
    ("+=", &["-="]),
    ("-=", &["+="]),
    ("*", &["/", "%"]),
    ("/", &["*", "%"]),
    ("%", &["*", "/"]),
    ("<<", &[">>"]),
    (">>", &["<<"]),
    ("&", &["|"]),
    ("|", &["&"]),
    ("^", &["|", "&"]),
    ("&&", &["||"]),
    ("||", &["&&"]),
];

pub fn edits(source: &Source, place: usize) -> Vec<Edit> {
    if !source.is(place, Kind::Mark) {
        return Vec::new();
    }
    let by = match source.word(place) {
        ".." if has_both_ends(source, place) => &["..="],
        "..=" => &[".."],
        "-" | "!" if is_sign(source, place) => &[""],
        mark if source.stands_apart(place) => between(mark),
        _ => &[],
    };
    replaced(source, place, by)
}

fn between(mark: &str) -> &'static [&'static str] {
    let found = BETWEEN.iter().find(|(from, _)| *from == mark);
    found.map_or(&[], |(_, to)| to)
}

/// Before an operand; the mark of a macro stands behind its name.
fn is_sign(source: &Source, place: usize) -> bool {
    let is_macro = source.touches_before(place) && source.is(place - 1, Kind::Word);
    source.touches_after(place) && !is_macro
}

/// A slice that is open at one end has no other form, nor has the rest of a struct or of a pattern.
fn has_both_ends(source: &Source, place: usize) -> bool {
    source.touches_before(place)
        && source.touches_after(place)
        && !["(", "["].contains(&source.before(place))
        && ![")", "]"].contains(&source.after(place))
}

#[cfg(test)]
mod tests {
    use super::super::tests::made;
    use super::*;

    #[test]
    fn what_stands_between_is_exchanged() {
        for (from, to) in BETWEEN {
            let expected: Vec<String> = to.iter().map(|mark| format!("a {mark} b")).collect();
            assert_eq!(made(edits, &format!("a {from} b")), expected);
        }
    }

    #[test]
    fn an_operator_may_begin_a_line() {
        assert_eq!(made(edits, "a\n    && b"), ["a\n    || b"]);
    }

    #[test]
    fn references_generics_closures_and_arrows_are_no_operators() {
        for text in [
            "&mut a", "*a", "Vec<u8>", "|a, b| a", "a::b", "A => b", "&&a", "..a",
        ] {
            assert_eq!(made(edits, text), [""; 0], "{text}");
        }
    }

    #[test]
    fn signs_and_negations_are_dropped() {
        assert_eq!(made(edits, "f(-1)"), ["f(1)"]);
        assert_eq!(made(edits, "a - -b"), ["a + -b", "a - b"]);
        assert_eq!(made(edits, "!a"), ["a"]);
        assert_eq!(made(edits, "panic!(a)"), [""; 0]);
    }

    #[test]
    fn ranges_with_two_ends_lose_or_gain_their_last() {
        assert_eq!(made(edits, "(1..=a).contains(&b)"), ["(1..a).contains(&b)"]);
        assert_eq!(made(edits, "(0..f())"), ["(0..=f())"]);
        for text in ["a[..b]", "a[b..]", "[a, ..]", "A { b, ..c }"] {
            assert_eq!(made(edits, text), [""; 0], "{text}");
        }
    }
}
