//! A text that is there as a whole: lines are cut out of it and looked at, without a state that goes from character to
//! character. So it can judge the reader and the writer that go in steps.

use super::verdict::{Refusal, Refused};
use super::{DIVISOR, LINE_DIGITS, LINE_VALUES};

/// What reading a whole text gives. Where it is refused, the values are those that a reader in steps has handed out by then: a
/// value that begins its line is held back until a digit follows it, since it may be the remainder.
#[derive(Clone, Debug, PartialEq, Eq)]
pub struct Reading {
    pub values: Vec<u8>,
    /// Where each value's first character stands.
    pub places: Vec<u64>,
    pub refused: Option<Refused>,
}

/// What stands between two line feeds, or behind the last.
struct Line<'a> {
    start: usize,
    body: &'a [u8],
    closed: bool,
}

impl Line<'_> {
    fn digits(&self) -> usize {
        let digits = self.body.iter().take_while(|c| c.is_ascii_hexdigit());
        digits.count()
    }

    /// The first character that cannot stand where it stands; the line feed belongs to the line that it ends.
    fn fault(&self) -> Option<Refused> {
        let (digits, length) = (self.digits(), self.body.len());
        let refused =
            |refusal: Refusal, column: usize| Some(refusal.at((self.start + column) as u64));
        if digits > LINE_DIGITS {
            return refused(Refusal::LineTooLong, LINE_DIGITS);
        }
        let whole_values = length != 0 && length % 2 == 0;
        if digits < length || self.closed && !whole_values {
            return refused(Refusal::BadCharacter, digits);
        }
        None
    }

    /// The values in front of the first wrong character, each with its place.
    fn values(&self) -> impl Iterator<Item = (u64, u8)> + '_ {
        let sound = &self.body[..self.digits().min(LINE_DIGITS)];
        let places = (self.start as u64..).step_by(2);
        places.zip(sound.chunks_exact(2).map(|pair| {
            let pair = std::str::from_utf8(pair).expect("digits are characters");
            u8::from_str_radix(pair, 16).expect("two digits")
        }))
    }
}

fn lines(text: &[u8]) -> Vec<Line<'_>> {
    let mut start = 0;
    let parts = text.split_inclusive(|&character| character == b'\n');
    parts
        .map(|part| {
            let body = part.strip_suffix(b"\n").unwrap_or(part);
            let line = Line {
                start,
                body,
                closed: body.len() < part.len(),
            };
            start += part.len();
            line
        })
        .collect()
}

pub fn read_whole(text: &[u8]) -> Reading {
    let mut lines = lines(text);
    let fault = lines.iter().position(|line| line.fault().is_some());
    lines.truncate(fault.map_or(lines.len(), |place| place + 1));
    let mut found: Vec<(u64, u8)> = lines.iter().flat_map(Line::values).collect();
    let held = if holds_back(&lines) {
        found.pop()
    } else {
        None
    };
    let faulty = lines.last().and_then(Line::fault);
    Reading {
        values: found.iter().map(|&(_, value)| value).collect(),
        places: found.iter().map(|&(place, _)| place).collect(),
        refused: faulty.or_else(|| remainder_fault(text, &lines, &found, held)),
    }
}

/// Whether the last value of these lines begins its line and no digit stands behind it.
fn holds_back(lines: &[Line]) -> bool {
    let with_digits = lines.iter().rev().find(|line| line.digits() > 0);
    with_digits.is_some_and(|line| line.digits() == 2)
}

/// What is wrong about the last line of a text in which no character is wrong.
fn remainder_fault(
    text: &[u8],
    lines: &[Line],
    values: &[(u64, u8)],
    last: Option<(u64, u8)>,
) -> Option<Refused> {
    let missing = |place: usize| Some(Refusal::MissingRemainder.at(place as u64));
    match (lines.last(), last) {
        (None, _) => missing(0),
        (Some(line), _) if !line.closed => missing(line.start),
        (Some(_), None) => missing(text.len()),
        (Some(line), Some((_, remainder))) => {
            let sum: u64 = values.iter().map(|&(_, value)| u64::from(value)).sum();
            let right = u64::from(remainder) == sum % u64::from(DIVISOR);
            (!right).then(|| Refusal::WrongRemainder.at(line.start as u64))
        }
    }
}

/// The text of these values: 32 to a line, then the remainder.
pub fn write_whole(values: &[u8]) -> Vec<u8> {
    let sum: u64 = values.iter().copied().map(u64::from).sum();
    let remainder = [(sum % u64::from(DIVISOR)) as u8];
    let lines = values.chunks(LINE_VALUES).chain([remainder.as_slice()]);
    let text: String = lines.map(written_line).collect();
    text.into_bytes()
}

fn written_line(values: &[u8]) -> String {
    let digits: String = values.iter().map(|value| format!("{value:02X}")).collect();
    digits + "\n"
}
