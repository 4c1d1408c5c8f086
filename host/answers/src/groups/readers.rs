//! Readers with any numbers in them, as no text makes them: columns and lines at their ends, sums of 255, high digits above 15;
//! and refused ones, which take nothing more.

use super::parts::room;
use super::text_parts::read;
use crate::call::Call;
use crate::due::Due;
use crate::page::Page;
use random::Random;
use second::text::{Reader, Refusal, Verdict};

const SEED: u64 = 16;

const COLUMNS: [u8; 11] = [0, 1, 2, 3, 4, 63, 64, 65, 66, 254, 255];
/// 2^32, and 2^64 less 66, 3 and 1.
const LINES: [u64; 4] = [1 << 32, u64::MAX - 65, u64::MAX - 2, u64::MAX];
const SUMS: [u8; 3] = [0, 254, 255];
const HIGHS: [u8; 5] = [0, 15, 16, 129, 255];
const HELD: [u8; 7] = [0, 1, 2, 128, 253, 254, 255];

pub fn readers(page: &mut Page) {
    page.group(
        "readers",
        "any numbers in a reader, each with a digit, a line feed, another character and the end; some from seed 16",
    );
    at_the_edges(page);
    every_octet(page);
    remainders(page);
    drawn_readers(page);
    refused_readers(page);
}

fn at_the_edges(page: &mut Page) {
    let mut drawn = (HIGHS.iter().cycle(), HELD.iter().cycle());
    for column in COLUMNS {
        for line in LINES {
            for sum in SUMS {
                for holds in [false, true] {
                    let (high, held) = (drawn.0.next(), drawn.1.next());
                    let reader = Reader {
                        verdict: Verdict::Sound,
                        line,
                        column,
                        high: *high.expect("no end"),
                        holds,
                        held: *held.expect("no end"),
                        sum,
                    };
                    each_character(page, reader);
                }
            }
        }
    }
}

/// The digit also without room for the value that it may hand out.
fn each_character(page: &mut Page, reader: Reader) {
    page.ask(read(reader, b"5", room(2)));
    page.ask(read(reader, b"C", room(0)));
    page.ask(read(reader, b"\n", room(1)));
    page.ask(read(reader, b"x", room(1)));
    page.ask(Call::EndText(reader));
}

/// As the second digit of a line's first value.
fn every_octet(page: &mut Page) {
    let reader = Reader {
        line: 8,
        column: 1,
        high: 10,
        ..Reader::default()
    };
    for octet in 0..=255_u8 {
        let digit = octet.is_ascii_hexdigit();
        page.due(
            Due::Read(usize::from(digit), vec![]),
            read(reader, &[octet], room(1)),
        );
    }
}

/// The end of a text with every sum at its ends and every value that may stand for the remainder of it.
fn remainders(page: &mut Page) {
    for sum in [0, 1, 253, 254, 255_u8] {
        for held in [0, 1, 253, 254, 255_u8] {
            for line in [3, 2, 0, u64::MAX] {
                let reader = Reader {
                    line,
                    holds: true,
                    held,
                    sum,
                    ..Reader::default()
                };
                let right = if sum == 255 { 0 } else { sum };
                let place = line.wrapping_sub(3);
                let due = match held == right {
                    true => Verdict::Sound,
                    false => Verdict::Refused(Refusal::WrongRemainder.at(place)),
                };
                page.due(Due::Verdict(due), Call::EndText(reader));
            }
        }
    }
}

fn any_reader(random: &mut Random) -> Reader {
    Reader {
        verdict: Verdict::Sound,
        line: random.draw() >> random.below(64),
        column: random.within(0, 68) as u8,
        high: random.byte(),
        holds: random.below(2) == 0,
        held: random.byte(),
        sum: random.within(0, 255) as u8,
    }
}

fn drawn_readers(page: &mut Page) {
    let mut random = Random::new(SEED);
    for _ in 0..150 {
        let reader = any_reader(&mut random);
        let length = 1 + random.below(8);
        let text: Vec<u8> = (0..length)
            .map(|_| random.pick(b"0123456789abcdefABCDEF\n\n\n\n\n\n "))
            .collect();
        let octets = random.below(5) as usize;
        page.ask(read(reader, &text, room(octets)));
    }
}

/// Whatever more is handed in, nothing is taken and the verdict stays.
fn refused_readers(page: &mut Page) {
    let some = Reader {
        line: 64,
        column: 2,
        high: 7,
        holds: true,
        held: 0x70,
        sum: 3,
        ..Reader::default()
    };
    for refusal in Refusal::ALL {
        for place in [0, 66, u64::MAX] {
            for numbers in [Reader::default(), some] {
                let verdict = Verdict::Refused(refusal.at(place));
                let reader = Reader { verdict, ..numbers };
                for text in ["", "0", "\n", "00\n", "G"] {
                    let call = read(reader, text.as_bytes(), room(2));
                    page.due(Due::Read(0, vec![]), call);
                }
                page.due(Due::Verdict(verdict), Call::EndText(reader));
            }
        }
    }
}
