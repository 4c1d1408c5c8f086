//! Texts drawn as a fuzzer would: right ones, right ones with one character changed, removed or put in, and garbage. Each is
//! fed in drawn pieces, with buffers of drawn lengths, and ended.

use super::text_parts::feed;
use crate::call::Call;
use crate::page::Page;
use random::texts::{in_lines, slip, values, CHARACTERS};
use random::Random;
use second::text::Reader;

const SEED: u64 = 15;
const TEXTS: usize = 1_500;

pub fn drawn_texts(page: &mut Page) {
    page.group(
        "drawn-texts",
        "1,500 texts from seed 15: good, nearly good, garbage, each in drawn pieces with drawn buffers, and ended",
    );
    let mut random = Random::new(SEED);
    for _ in 0..TEXTS {
        let text = any_text(&mut random);
        in_pieces(page, &mut random, &text);
    }
}

fn in_pieces(page: &mut Page, random: &mut Random, text: &[u8]) {
    let mut reader = Reader::default();
    let mut rest = text;
    while !rest.is_empty() {
        let most = rest.len() as u64;
        let length = match random.below(5) {
            0 | 1 => most,
            _ => random.within(0, most),
        };
        let (piece, behind) = rest.split_at(length as usize);
        let enough = piece.len() / 2 + 1;
        reader = feed(page, reader, piece, || some_octets(random, enough));
        rest = behind;
    }
    page.ask(Call::EndText(reader));
}

fn some_octets(random: &mut Random, enough: usize) -> usize {
    match random.below(10) {
        0 => 0,
        1 => 1,
        2 => random.below(8) as usize,
        3 => enough / 2 + 1,
        _ => enough + random.below(3) as usize,
    }
}

fn any_text(random: &mut Random) -> Vec<u8> {
    match random.below(8) {
        0 | 1 => right_text(random),
        2 => garbage(random),
        3 => long_line(random),
        _ => spoilt(random),
    }
}

/// Few values, or about as many as one or two lines have.
fn some_values(random: &mut Random) -> Vec<u8> {
    let count = match random.below(12) {
        0 => random.within(31, 33),
        1 => random.within(63, 65),
        _ => random.below(7),
    };
    values(random, count)
}

/// Lines of any length, digits of either case, and the remainder.
fn right_text(random: &mut Random) -> Vec<u8> {
    let values = some_values(random);
    let mut text = in_lines(random, &values);
    for character in &mut text {
        if random.below(3) == 0 {
            character.make_ascii_lowercase();
        }
    }
    text
}

fn spoilt(random: &mut Random) -> Vec<u8> {
    let mut text = right_text(random);
    let place = random.below(text.len() as u64) as usize;
    let character = match random.below(8) {
        0 => random.byte(),
        _ => random.pick(CHARACTERS),
    };
    slip(random, &mut text, place, character);
    text
}

fn garbage(random: &mut Random) -> Vec<u8> {
    let alphabet = random.pick(&[CHARACTERS, b"000000000000\n\n"]);
    let length = random.below(24);
    (0..length).map(|_| random.pick(alphabet)).collect()
}

/// A line of about 64 digits, after another or not, and perhaps something behind it.
fn long_line(random: &mut Random) -> Vec<u8> {
    let mut text = random.pick(&[b"".as_slice(), b"00\n", b"0102\n"]).to_vec();
    let length = random.within(63, 66);
    text.extend((0..length).map(|_| random.pick(b"09aF")));
    text.extend(random.pick(&[b"".as_slice(), b"\n", b"\n00\n", b"G", b"0\n"]));
    text
}
