//! An integer one up and one down. Lengths of arrays and fields of tuples are no numbers of the codec.

use super::{replaced, Edit};
use crate::scanner::Kind;
use crate::source::Source;

pub fn edits(source: &Source, place: usize) -> Vec<Edit> {
    let is_length = source.before(place) == ";" && source.after(place) == "]";
    let is_field = source.before(place) == ".";
    if !source.is(place, Kind::Number) || is_length || is_field {
        return Vec::new();
    }
    replaced(source, place, &neighbours(source.word(place)))
}

/// One more and one less, written as the number is; 0 has none below it, since most are unsigned.
fn neighbours(literal: &str) -> Vec<String> {
    let (digits, suffix) = split_suffix(literal);
    let (radix, base) = match digits.get(..2) {
        Some("0x") => ("0x", 16),
        Some("0b") => ("0b", 2),
        _ => ("", 10),
    };
    let plain = digits[radix.len()..].replace('_', "");
    let Ok(value) = u64::from_str_radix(&plain, base) else {
        return Vec::new();
    };
    let written = |value: u64| match base {
        16 => format!("0x{value:X}{suffix}"),
        2 => format!("0b{value:b}{suffix}"),
        _ => format!("{value}{suffix}"),
    };
    let both = [Some(value + 1), value.checked_sub(1)];
    both.into_iter().flatten().map(written).collect()
}

/// A type at the end, as in `1_u64`. Letters of hexadecimal digits are none: no type begins with one.
fn split_suffix(literal: &str) -> (&str, &str) {
    let start = literal.find(['u', 'i']).unwrap_or(literal.len());
    literal.split_at(start)
}

#[cfg(test)]
mod tests {
    use super::super::tests::made;
    use super::*;

    #[test]
    fn one_up_and_one_down_in_every_way_of_writing() {
        for (literal, expected) in [
            ("7", &["8", "6"][..]),
            ("0", &["1"]),
            ("1_024", &["1025", "1023"]),
            ("0x7F", &["0x80", "0x7E"]),
            ("0b100", &["0b101", "0b11"]),
            ("1_u64", &["2u64", "0u64"]),
            ("0xFFu8", &["0x100u8", "0xFEu8"]),
        ] {
            assert_eq!(made(edits, literal), expected);
        }
    }

    #[test]
    fn lengths_and_fields_stay() {
        assert_eq!(made(edits, "[0; 6]"), ["[1; 6]"]);
        assert_eq!(made(edits, "runs[run].0"), [""; 0]);
    }

    #[test]
    fn ends_of_ranges_are_numbers() {
        assert_eq!(made(edits, "0..=8"), ["1..=8", "0..=9", "0..=7"]);
    }
}
