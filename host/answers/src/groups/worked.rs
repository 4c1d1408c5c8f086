//! The rules' worked examples: frames written and thinned, the twelve first bytes at every core, levels.

use super::parts::{decode_fitting, drop, encode_fitting, frame, in_edition, room, EDITIONS};
use crate::call::Call;
use crate::due::Due;
use crate::page::Page;
use second::g711::Law;
use second::sample;
use second::state::State;

const EIGHT: [u8; 7] = [0x6A, 0x01, 0xFF, 0x00, 0x00, 0x00, 0x00];
const ONE: [u8; 7] = [0x6A, 0x01, 0x00, 0x00, 0x00, 0x00, 0x80];

pub fn frames(page: &mut Page) {
    page.group(
        "frames",
        "the rules' worked frames in both editions, written from octets, thinned, copied and read",
    );
    for edition in EDITIONS {
        for (codewords, written) in [([16; 8], EIGHT), ([1, 0, 0, 0, 0, 0, 0, 0], ONE)] {
            one_worked(page, edition, &codewords, &written);
        }
    }
    let thinned = |to: &[u8]| Due::Out(to.to_vec());
    page.due(
        thinned(&[0x52, 1, 0xFF, 0]),
        drop(EIGHT.to_vec(), 2, room(4)),
    );
    page.due(
        thinned(&[0x62, 1, 0, 0, 0, 0]),
        drop(ONE.to_vec(), 4, room(6)),
    );
    let numbered = [0xAA, 1, 0xA5, 0xFF, 0, 0, 0, 0];
    page.due(
        thinned(&[0x92, 1, 0xA5, 0xFF, 0]),
        drop(numbered.to_vec(), 2, room(5)),
    );
}

/// From reset, so that the number in edition 2 is 0.
fn one_worked(page: &mut Page, edition: u8, codewords: &[u8], written: &[u8]) {
    let written = in_edition(edition, 0, written.to_vec());
    let octets = octets_for(State::reset(2), codewords);
    page.due(
        Due::Out(written.clone()),
        encode_fitting(State::reset(2), 0, edition, 5, octets),
    );
    page.ask(decode_fitting(State::reset(2), 0, written.clone()));
    for width in 2..=5 {
        let thin: Vec<u8> = codewords.iter().map(|c| c >> (5 - width)).collect();
        let due = in_edition(edition, 0, frame(width, 2, &thin));
        page.due(Due::Out(due), drop(written.clone(), width, room(9)));
    }
}

/// Octets of mu-law that give these codewords at width 5.
fn octets_for(first: State, codewords: &[u8]) -> Vec<u8> {
    let mut state = first;
    let mut octet_for = |codeword: &u8| {
        let gives = |octet: &u8| sample::encode(&state, Law::Mu, 5, *octet).codeword == *codeword;
        let octet = (0..=255).find(gives).expect("an octet with this codeword");
        state = sample::encode(&state, Law::Mu, 5, octet).state;
        octet
    };
    codewords.iter().map(&mut octet_for).collect()
}

/// Law, byte and codeword, as the rules' table has them.
const FIRST: [(u8, u8, u8); 12] = [
    (0, 0xFF, 0b00000),
    (0, 0x7F, 0b00000),
    (0, 0xFE, 0b00001),
    (0, 0x7E, 0b11110),
    (0, 0xFD, 0b00011),
    (0, 0xFC, 0b00101),
    (0, 0x80, 0b01111),
    (0, 0x00, 0b10000),
    (1, 0xD5, 0b00001),
    (1, 0x55, 0b11110),
    (1, 0xD4, 0b00101),
    (1, 0x2A, 0b10000),
];

pub fn first_bytes(page: &mut Page) {
    page.group(
        "first-bytes",
        "the rules' twelve first bytes at every core, eight times each",
    );
    for core in 2..=4 {
        for (law, octet, codeword) in FIRST {
            let call = encode_fitting(State::reset(core), law, 1, 5, vec![octet; 8]);
            page.due(Due::First(codeword), call);
        }
    }
}

/// What the rules say of some octets: level, octet above, octet below.
fn level_due(law: Law, octet: u8) -> Due {
    let below_zero = |size: u16| Some(16_384 - size);
    match (law, octet) {
        (Law::Mu, 0x80) => Due::Level(Some(8_031), Some(0x80), None),
        (Law::Mu, 0x00) => Due::Level(below_zero(8_031), None, Some(0x00)),
        (Law::Mu, 0xFF) => Due::Level(Some(0), None, Some(0x7E)),
        (Law::Mu, 0x7F) => Due::Level(Some(0), Some(0xFE), None),
        (Law::A, 0xAA) => Due::Level(Some(8_064), Some(0xAA), None),
        (Law::A, 0x2A) => Due::Level(below_zero(8_064), None, Some(0x2A)),
        (Law::A, 0xD5) => Due::Level(Some(2), None, Some(0x55)),
        (Law::A, 0x55) => Due::Level(below_zero(2), Some(0xD5), None),
        _ => Due::Open,
    }
}

pub fn levels(page: &mut Page) {
    page.group(
        "levels",
        "EXPAND of every octet, and the octets one level above and below",
    );
    for law in Law::BOTH {
        for octet in 0..=255 {
            page.due(level_due(law, octet), Call::Level(law, octet));
        }
    }
}
