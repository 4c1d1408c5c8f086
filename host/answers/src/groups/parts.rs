//! What several groups are made of: octets with a pattern, frames, calls with the fields that a group does not care about.

use crate::call::{Call, Decode, Drop, Encode};
use random::states::PAIRS;
use second::frame::{self, Header};
use second::state::State;

/// Octets start, start + step, and so on.
pub fn pattern(start: u8, step: u8, count: usize) -> Vec<u8> {
    let next = |octet: &u8| Some(octet.wrapping_add(step));
    std::iter::successors(Some(start), next)
        .take(count)
        .collect()
}

pub fn samples(count: usize) -> Vec<u8> {
    pattern(0x35, 0x1D, count)
}

/// A buffer as it is handed in: no two neighbours are alike.
pub fn room(octets: usize) -> Vec<u8> {
    pattern(0xC1, 0x0B, octets)
}

pub const EDITIONS: [u8; 2] = [1, 2];

/// Edition, width and core: every pair in both editions.
pub fn editions_and_pairs() -> impl Iterator<Item = (u8, u8, u8)> {
    let with = |edition: u8| PAIRS.map(|(width, core)| (edition, width, core));
    EDITIONS.into_iter().flat_map(with)
}

/// The length of a header.
pub fn head_octets(edition: u8) -> usize {
    match edition {
        2 => 3,
        _ => 2,
    }
}

/// The first octet of a header of edition 1.
pub fn head(width: u8, core: u8) -> u8 {
    64 + 8 * width + core
}

/// So many octets, of which the first two are given.
pub fn octets(first: u8, groups: u8, length: usize) -> Vec<u8> {
    let mut octets = pattern(0x5B, 0x47, length.max(2));
    octets[0] = first;
    octets[1] = groups;
    octets.truncate(length);
    octets
}

/// What is a frame of edition 1, as one of another: with the other's bits, and with the number in edition 2.
pub fn in_edition(edition: u8, number: u8, frame: Vec<u8>) -> Vec<u8> {
    let mut octets = frame;
    octets[0] = edition << 6 | octets[0] & 0b0011_1111;
    if edition == 2 {
        octets.insert(2, number);
    }
    octets
}

/// The frame of these codewords in edition 1.
pub fn frame(width: u8, core: u8, codewords: &[u8]) -> Vec<u8> {
    let header = Header {
        edition: 1,
        width,
        core,
        groups: codewords.len() / 8,
        number: None,
    };
    let mut octets = vec![0; header.octets()];
    frame::pack(header, codewords, &mut octets);
    octets
}

pub fn frame_octets(edition: u8, width: u8, samples: usize) -> usize {
    head_octets(edition) + usize::from(width) * (samples / 8)
}

pub fn encode(
    state: State,
    law: u8,
    edition: u8,
    width: u8,
    samples: Vec<u8>,
    out: Vec<u8>,
) -> Call {
    Call::Encode(Encode {
        state,
        law,
        edition,
        width,
        samples,
        out,
    })
}

pub fn decode(state: State, law: u8, frame: Vec<u8>, out: Vec<u8>) -> Call {
    Call::Decode(Decode {
        state,
        law,
        frame,
        out,
    })
}

pub fn drop(frame: Vec<u8>, width: u8, out: Vec<u8>) -> Call {
    Call::Drop(Drop { frame, width, out })
}

/// With a buffer just long enough, all of one octet so that the line stays short to read.
pub fn encode_fitting(state: State, law: u8, edition: u8, width: u8, samples: Vec<u8>) -> Call {
    let out = vec![0xEE; frame_octets(edition, width, samples.len())];
    encode(state, law, edition, width, samples, out)
}

pub fn decode_fitting(state: State, law: u8, frame: Vec<u8>) -> Call {
    let out = vec![0xEE; 8 * usize::from(frame[1])];
    decode(state, law, frame, out)
}

pub fn at_number(core: u8, number: u8) -> State {
    State {
        number,
        ..State::reset(core)
    }
}

/// YU one too small.
pub fn unfit(core: u8) -> State {
    State {
        yu: 543,
        ..State::reset(core)
    }
}
