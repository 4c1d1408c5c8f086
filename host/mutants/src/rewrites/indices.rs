//! The index of a table and the end of a slice: one further and one back.

use super::Edit;
use crate::scanner::Kind;
use crate::source::Source;
use std::ops::Range;

pub fn edits(source: &Source, place: usize) -> Vec<Edit> {
    if !opens_index(source, place) {
        return Vec::new();
    }
    expressions(source, place + 1..source.closing(place))
        .into_iter()
        .flat_map(|places| beside(source, places))
        .collect()
}

/// An array begins with a bracket that touches nothing before it, or only another bracket or a mark.
fn opens_index(source: &Source, place: usize) -> bool {
    let before = source.before(place);
    let is_operand = [")", "]"].contains(&before) || source.is(place.wrapping_sub(1), Kind::Word);
    source.word(place) == "[" && source.touches_before(place) && is_operand
}

/// The whole of it, or what stands on either side of the range that it is.
fn expressions(source: &Source, inside: Range<usize>) -> Vec<Range<usize>> {
    let dots = source.first_outside(inside.start, &["..", "..=", "]"]);
    let sides = [inside.start..dots, dots + 1..inside.end];
    let is_rewritten = |side: &Range<usize>| !side.is_empty() && !is_number(source, side);
    sides.into_iter().filter(is_rewritten).collect()
}

/// Numbers are rewritten as such.
fn is_number(source: &Source, places: &Range<usize>) -> bool {
    places.len() == 1 && source.is(places.start, Kind::Number)
}

fn beside(source: &Source, places: Range<usize>) -> [Edit; 2] {
    let octets = source.octets(places);
    let whole = match &source.text[octets.clone()] {
        text if text.contains(' ') => format!("({text})"),
        text => text.to_string(),
    };
    ["+", "-"].map(|sign| Edit {
        octets: octets.clone(),
        to: format!("{whole} {sign} 1"),
    })
}

#[cfg(test)]
mod tests {
    use super::super::tests::made;
    use super::*;

    #[test]
    fn an_index_goes_one_further_and_one_back() {
        assert_eq!(made(edits, "a[i]"), ["a[i + 1]", "a[i - 1]"]);
        assert_eq!(made(edits, "f(a)[g(b, c)]")[0], "f(a)[(g(b, c)) + 1]");
        assert_eq!(made(edits, "a[i][j]").len(), 4);
    }

    #[test]
    fn so_does_the_end_of_a_slice() {
        assert_eq!(made(edits, "a[..n]"), ["a[..n + 1]", "a[..n - 1]"]);
        assert_eq!(made(edits, "a[n..]"), ["a[n + 1..]", "a[n - 1..]"]);
        assert_eq!(made(edits, "a[m..n]").len(), 4);
    }

    #[test]
    fn numbers_arrays_and_types_are_no_indices() {
        for text in [
            "a[0]",
            "[a, b]",
            "&mut [u8]",
            "f([a])",
            "vec![a, b]",
            "&[a]",
        ] {
            assert_eq!(made(edits, text), [""; 0], "{text}");
        }
    }
}
