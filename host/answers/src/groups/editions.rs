//! The four values that a header's two bits of edition have, and requests for editions: frames of two octets, of three, and whole
//! ones of either length. What is the number in edition 2 is an octet of the first plane in edition 1.

use super::parts::{
    at_number, decode, drop, editions_and_pairs, encode_fitting, frame_octets, octets, room,
    samples,
};
use crate::due::Due;
use crate::page::Page;
use random::states::PAIRS;

/// The number that is due, and the third octet of every frame.
const NUMBER: u8 = 0x5A;

pub fn editions(page: &mut Page) {
    page.group(
        "editions",
        "every edition that two bits can have, at every pair: asked of encode, and in frames of 2 and 3 octets and of both whole lengths",
    );
    for (width, core) in PAIRS {
        for edition in 0..4 {
            requested(page, edition, width, core);
            for length in [2, 3, frame_octets(1, width, 8), frame_octets(2, width, 8)] {
                received(page, edition, (width, core), length);
            }
        }
    }
    third_octets(page);
}

fn requested(page: &mut Page, edition: u8, width: u8, core: u8) {
    let due = match edition {
        1 | 2 => Due::Done(frame_octets(edition, width, 8)),
        _ => Due::Refused(5),
    };
    let state = at_number(core, NUMBER);
    page.due(due, encode_fitting(state, 0, edition, width, samples(8)));
}

fn received(page: &mut Page, edition: u8, (width, core): (u8, u8), length: usize) {
    let whole = frame_octets(edition, width, 8);
    let due = |done: usize| match edition {
        0 | 3 => Due::Refused(5),
        _ if length == whole => Due::Done(done),
        _ => Due::Refused(6),
    };
    let first = first_octet(edition, width, core);
    let frame = || with_third(octets(first, 1, length), NUMBER);
    let state = at_number(core, NUMBER);
    page.due(due(8), decode(state, 1, frame(), room(8)));
    page.due(due(whole), drop(frame(), width, room(9)));
}

fn first_octet(edition: u8, width: u8, core: u8) -> u8 {
    edition << 6 | width << 3 | core
}

fn with_third(frame: Vec<u8>, third: u8) -> Vec<u8> {
    let mut octets = frame;
    octets.iter_mut().skip(2).take(1).for_each(|o| *o = third);
    octets
}

/// The third octet as the due number and as others: edition 2 takes one of them, edition 1 each.
fn third_octets(page: &mut Page) {
    for (edition, width, core) in editions_and_pairs() {
        let first = first_octet(edition, width, core);
        for third in [NUMBER, NUMBER + 1, NUMBER - 1, 0, 255] {
            let frame = octets(first, 2, frame_octets(edition, width, 16));
            let due = match edition {
                2 if third != NUMBER => Due::Refused(10),
                _ => Due::Done(16),
            };
            let state = at_number(core, NUMBER);
            page.due(due, decode(state, 0, with_third(frame, third), room(16)));
        }
    }
}
