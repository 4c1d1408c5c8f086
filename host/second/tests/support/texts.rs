//! Drawn texts: good ones, nearly good ones, garbage over a small alphabet.

use random::texts::{self, CHARACTERS};
use random::Random;

/// So few values that lines of 32 are still met.
pub fn values(random: &mut Random) -> Vec<u8> {
    let count = match random.below(8) {
        0 => random.within(30, 34),
        1 => random.within(62, 66),
        _ => random.below(7),
    };
    texts::values(random, count)
}

/// A right text: lines of any length, digits of either case.
pub fn good(random: &mut Random) -> Vec<u8> {
    let values = values(random);
    let mut text = texts::in_lines(random, &values);
    either_case(random, &mut text);
    text
}

fn either_case(random: &mut Random, text: &mut [u8]) {
    match random.below(3) {
        0 => text.make_ascii_lowercase(),
        1 => {
            for character in text {
                if random.below(2) == 0 {
                    character.make_ascii_lowercase();
                }
            }
        }
        _ => {}
    }
}

/// One character changed, removed or put in, or the end cut off.
pub fn nearly_good(random: &mut Random) -> Vec<u8> {
    let mut text = good(random);
    let place = random.below(text.len() as u64) as usize;
    let character = random.pick(CHARACTERS);
    texts::slip(random, &mut text, place, character);
    text
}

/// Of a few characters, or digits only, of which a line may have too many.
pub fn garbage(random: &mut Random) -> Vec<u8> {
    let (alphabet, length) = match random.below(3) {
        0 => (CHARACTERS, random.below(24)),
        1 => (b"000000000000\n\n".as_slice(), random.below(24)),
        _ => (b"09aF".as_slice(), random.within(62, 67)),
    };
    let mut text: Vec<u8> = (0..length).map(|_| random.pick(alphabet)).collect();
    if random.below(2) == 0 {
        text.push(random.pick(CHARACTERS));
    }
    text
}

pub fn any(random: &mut Random) -> Vec<u8> {
    match random.below(4) {
        0 => good(random),
        1 | 2 => nearly_good(random),
        _ => garbage(random),
    }
}
