//! The condition of an `if` and the guard of a match arm, negated.

use super::Edit;
use crate::source::Source;

pub fn edits(source: &Source, place: usize) -> Vec<Edit> {
    if source.word(place) != "if" || source.after(place) == "let" {
        return Vec::new();
    }
    let end = source.first_outside(place + 1, &["{", "=>"]);
    let octets = source.octets(place + 1..end);
    let to = format!("!({})", &source.text[octets.clone()]);
    vec![Edit { octets, to }]
}

#[cfg(test)]
mod tests {
    use super::super::tests::made;
    use super::*;

    #[test]
    fn conditions_are_negated() {
        let text = "if a.all(|b| { b }) && c { d } else { e }";
        assert_eq!(
            made(edits, text),
            ["if !(a.all(|b| { b }) && c) { d } else { e }"]
        );
    }

    #[test]
    fn guards_are_negated() {
        assert_eq!(made(edits, "A if b || c => d,"), ["A if !(b || c) => d,"]);
    }

    #[test]
    fn a_pattern_has_no_negation() {
        assert_eq!(made(edits, "if let Some(a) = b { c }"), [""; 0]);
    }
}
