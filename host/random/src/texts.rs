//! Parts of drawn texts of a sequence.

use crate::Random;
use second::text::write_whole;

/// Any octets, or such as bring a sum to its ends.
pub fn values(random: &mut Random, count: u64) -> Vec<u8> {
    match random.below(3) {
        0 => (0..count).map(|_| random.pick(&[0, 1, 254, 255])).collect(),
        _ => random.bytes(count as usize),
    }
}

/// The text of these values in lines of any length, with its remainder.
pub fn in_lines(random: &mut Random, values: &[u8]) -> Vec<u8> {
    let mut digits = write_whole(values);
    digits.retain(|&character| character != b'\n');
    let remainder = digits.split_off(digits.len() - 2);
    let most = random.pick(&[1, 2, 3, 32]);
    let mut text = Vec::new();
    let mut rest = digits.as_slice();
    while !rest.is_empty() {
        let length = 2 * (1 + random.below(most)) as usize;
        let (line, behind) = rest.split_at(length.min(rest.len()));
        text.extend(line);
        text.push(b'\n');
        rest = behind;
    }
    text.extend(remainder);
    text.push(b'\n');
    text
}

/// Digits of either case, line feeds, and characters that no text has.
pub const CHARACTERS: &[u8] = b"0019aFf\n\n\nG \r";

/// Makes a good text nearly good. At the place the character is put over another or before it, or one is
/// removed, or the text ends.
pub fn slip(random: &mut Random, text: &mut Vec<u8>, place: usize, character: u8) {
    match random.below(4) {
        0 => text[place] = character,
        1 => drop(text.remove(place)),
        2 => text.insert(place, character),
        _ => text.truncate(place),
    }
}
