//! A refused call may be made again as if it had not been made: the sound call, the call with a fault, the sound call again.
//! The program keeps its memory from line to line, so the third answer tells what the refusal left there.

use super::linear_parts::{decode_linear, encode_linear, linear_room, linear_samples};
use super::parts::{at_number, decode, drop, encode, in_edition, octets, room, samples, unfit};
use crate::call::Call;
use crate::due::Due;
use crate::page::Page;
use second::state::State;

pub fn again(page: &mut Page) {
    page.group(
        "again",
        "a sound call, a refused one, and the sound one again",
    );
    let s = State::reset(3);
    encoded_again(page, s);
    decoded_again(page, s);
    dropped_again(page);
    numbered_again(page, at_number(3, 255));
    linear_again(page, at_number(3, 255));
}

fn encoded_again(page: &mut Page, s: State) {
    let coded = |state, law, width, count, length| {
        encode(state, law, 1, width, samples(count), room(length))
    };
    let sound = coded(s, 0, 5, 16, 12);
    for (number, refused) in [
        (4, coded(unfit(3), 0, 5, 16, 12)),
        (9, coded(s, 2, 5, 16, 12)),
        (1, coded(s, 0, 6, 16, 12)),
        (2, coded(s, 0, 5, 20, 12)),
        (3, coded(s, 0, 5, 16, 11)),
    ] {
        three(page, Due::Done(12), &sound, number, refused);
    }
}

/// At the number 255, which the sound calls use up and the refused ones do not.
fn numbered_again(page: &mut Page, s: State) {
    let coded = |edition, length| encode(s, 0, edition, 5, samples(16), room(length));
    for (number, refused) in [(5, coded(3, 13)), (3, coded(2, 12))] {
        three(page, Due::Done(13), &coded(2, 13), number, refused);
    }
    let decoded = |number, length| {
        let frame = in_edition(2, number, octets(0x63, 2, 10));
        decode(s, 1, frame, room(length))
    };
    for (number, refused) in [(10, decoded(0, 16)), (3, decoded(255, 15))] {
        three(page, Due::Done(16), &decoded(255, 16), number, refused);
    }
}

fn linear_again(page: &mut Page, s: State) {
    let coded = |last: i16, length| {
        let mut samples = linear_samples(16);
        samples[15] = last;
        encode_linear(s, 2, 5, samples, room(length))
    };
    let sound = coded(8_191, 13);
    for (number, refused) in [(11, coded(8_192, 13)), (3, coded(8_191, 12))] {
        three(page, Due::Done(13), &sound, number, refused);
    }
    let decoded = |number, length| {
        let frame = in_edition(2, number, octets(0x63, 2, 10));
        decode_linear(s, frame, linear_room(length))
    };
    for (number, refused) in [(10, decoded(0, 16)), (3, decoded(255, 15))] {
        three(page, Due::Done(16), &decoded(255, 16), number, refused);
    }
}

fn decoded_again(page: &mut Page, s: State) {
    let decoded = |state, law, frame, length| decode(state, law, frame, room(length));
    let frame = || octets(0x63, 2, 10);
    let sound = decoded(s, 1, frame(), 16);
    for (number, refused) in [
        (4, decoded(unfit(3), 1, frame(), 16)),
        (9, decoded(s, 2, frame(), 16)),
        (5, decoded(s, 1, octets(0x23, 2, 10), 16)),
        (1, decoded(s, 1, octets(0x61, 2, 10), 16)),
        (2, decoded(s, 1, octets(0x63, 0, 10), 16)),
        (6, decoded(s, 1, octets(0x63, 2, 11), 16)),
        (7, decoded(s, 1, octets(0x62, 2, 10), 16)),
        (3, decoded(s, 1, frame(), 15)),
    ] {
        three(page, Due::Done(16), &sound, number, refused);
    }
}

fn dropped_again(page: &mut Page) {
    let frame = || octets(0x6A, 2, 12);
    let sound = drop(frame(), 3, room(8));
    for (number, refused) in [
        (5, drop(octets(0x2A, 2, 12), 3, room(8))),
        (1, drop(octets(0x69, 2, 12), 3, room(8))),
        (2, drop(octets(0x6A, 0, 12), 3, room(8))),
        (6, drop(octets(0x6A, 2, 11), 3, room(8))),
        (8, drop(frame(), 1, room(8))),
        (3, drop(frame(), 3, room(7))),
    ] {
        three(page, Due::Done(8), &sound, number, refused);
    }
}

fn three(page: &mut Page, done: Due, sound: &Call, number: u8, refused: Call) {
    page.due(done.clone(), sound.clone());
    page.due(Due::Refused(number), refused);
    page.due(done, sound.clone());
}
