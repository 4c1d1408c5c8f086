//! Rows that could be exchanged: for each pair of rows of a call an input with both faults, and one with all of them.

use super::linear_parts::{decode_linear, encode_linear, linear_room, linear_samples};
use super::parts::{
    decode, drop, encode, head_octets, in_edition, octets, room, samples, unfit, EDITIONS,
};
use crate::call::{Call, Decode, DecodeLinear, Drop, Encode, EncodeLinear};
use crate::due::Due;
use crate::page::Page;
use second::state::State;

/// A way to spoil a call, with the reply that is then due.
type Fault<T> = (u8, fn(&mut T));

/// Faults in the order of the rules' rows, so that the first of those chosen decides.
const ENCODE: [Fault<Encode>; 6] = [
    (4, |c| c.state = unfit(c.state.core)),
    (9, |c| c.law = 2),
    (5, |c| c.edition = 3),
    (1, |c| c.width = 2),
    (2, |c| c.samples.truncate(12)),
    (3, |c| c.out.truncate(1)),
];

/// The frame stays one octet too long whatever its x and g, and core 4 at width 5 is a pair. 200 is no number that the frame has.
const DECODE: [Fault<Decode>; 9] = [
    (4, |c| c.state.yu = 543),
    (9, |c| c.law = 255),
    (5, |c| c.frame[0] |= 0b1100_0000),
    (1, |c| c.frame[0] = c.frame[0] & 0b1100_0111 | 0b0011_0000),
    (2, |c| c.frame[1] = 0),
    (6, |c| c.frame.push(0)),
    (7, |c| c.frame[0] = c.frame[0] & 0b1111_1000 | 4),
    (10, |c| c.state.number = 200),
    (3, |c| c.out.clear()),
];

/// As those of a law, without its row and with that of a sample. Twelve samples have the wrong one too.
const ENCODE_LINEAR: [Fault<EncodeLinear>; 6] = [
    (4, |c| c.state = unfit(c.state.core)),
    (5, |c| c.edition = 3),
    (1, |c| c.width = 2),
    (2, |c| c.samples.truncate(12)),
    (11, |c| c.samples[11] = -8_193),
    (3, |c| c.out.truncate(1)),
];

const DECODE_LINEAR: [Fault<DecodeLinear>; 8] = [
    (4, |c| c.state.yu = 543),
    (5, |c| c.frame[0] |= 0b1100_0000),
    (1, |c| c.frame[0] = c.frame[0] & 0b1100_0111 | 0b0011_0000),
    (2, |c| c.frame[1] = 0),
    (6, |c| c.frame.push(0)),
    (7, |c| c.frame[0] = c.frame[0] & 0b1111_1000 | 4),
    (10, |c| c.state.number = 200),
    (3, |c| c.out.clear()),
];

const DROP: [Fault<Drop>; 6] = [
    (5, |c| c.frame[0] &= 0b0011_1111),
    (1, |c| c.frame[0] = c.frame[0] & 0b1111_1000 | 7),
    (2, |c| c.frame[1] = 41),
    (6, |c| c.frame.truncate(11)),
    (8, |c| c.width = 2),
    (3, |c| c.out.truncate(3)),
];

pub fn order(page: &mut Page) {
    page.group(
        "order",
        "two faults at a time, every pair of rows of every call in both editions, and all at once",
    );
    for edition in EDITIONS {
        in_edition_s_order(page, edition);
    }
}

pub fn linear_order(page: &mut Page) {
    page.group(
        "linear-order",
        "two faults at a time, every pair of rows of the linear calls in both editions, and all at once",
    );
    for edition in EDITIONS {
        let out = room(head_octets(edition) + 10);
        let sound = encode_linear(State::reset(3), edition, 5, linear_samples(16), out);
        if let Call::EncodeLinear(sound) = sound {
            in_pairs(page, &sound, &ENCODE_LINEAR, Call::EncodeLinear);
        }
        let frame = in_edition(edition, 0, octets(0x6B, 2, 12));
        if let Call::DecodeLinear(sound) = decode_linear(State::reset(3), frame, linear_room(16)) {
            let rows = with_number_in_edition_2(&DECODE_LINEAR, edition);
            in_pairs(page, &sound, &rows, Call::DecodeLinear);
        }
    }
}

/// Edition 1 has no row 10.
fn with_number_in_edition_2<T>(faults: &[Fault<T>], edition: u8) -> Vec<Fault<T>> {
    let met = |row: &&Fault<T>| edition == 2 || row.0 != 10;
    faults.iter().filter(met).copied().collect()
}

fn in_edition_s_order(page: &mut Page, edition: u8) {
    let head = head_octets(edition);
    let sound = encode(State::reset(3), 0, edition, 5, samples(16), room(head + 10));
    if let Call::Encode(sound) = sound {
        in_pairs(page, &sound, &ENCODE, Call::Encode);
    }
    let frame = in_edition(edition, 0, octets(0x6B, 2, 12));
    if let Call::Decode(sound) = decode(State::reset(3), 1, frame.clone(), room(16)) {
        let rows = with_number_in_edition_2(&DECODE, edition);
        in_pairs(page, &sound, &rows, Call::Decode);
    }
    if let Call::Drop(sound) = drop(frame, 4, room(head + 8)) {
        in_pairs(page, &sound, &DROP, Call::Drop);
    }
}

fn in_pairs<T: Clone>(page: &mut Page, sound: &T, faults: &[Fault<T>], call: fn(T) -> Call) {
    let mut spoil = |chosen: &[Fault<T>]| {
        let mut spoilt = sound.clone();
        chosen.iter().for_each(|(_, fault)| fault(&mut spoilt));
        page.due(Due::Refused(chosen[0].0), call(spoilt));
    };
    for first in 0..faults.len() {
        for second in first + 1..faults.len() {
            spoil(&[faults[first], faults[second]]);
        }
        spoil(&faults[first..]);
    }
}
