//! Frame numbers about both ends of an octet and about its middle: written, read with the due one and with others, kept by a drop.

use super::parts::{
    at_number, decode, decode_fitting, drop, editions_and_pairs, encode_fitting, frame_octets,
    head, in_edition, octets, room, samples,
};
use crate::due::Due;
use crate::page::Page;
use random::states::PAIRS;

const TURNING: [u8; 6] = [0, 1, 127, 128, 254, 255];

pub fn numbers(page: &mut Page) {
    page.group(
        "numbers",
        "the numbers 0, 1, 127, 128, 254 and 255: written and read in both editions, with others where they are due, kept by every drop",
    );
    for number in TURNING {
        for (edition, width, core) in editions_and_pairs() {
            at_both_ends(page, edition, (width, core), number);
        }
        for (width, core) in PAIRS {
            others(page, (width, core), number);
            kept(page, (width, core), number);
        }
    }
}

/// A frame of two groups in edition 1. Its first planes are those of a narrower one.
fn plain(width: u8, core: u8) -> Vec<u8> {
    octets(head(width, core), 2, frame_octets(1, width, 16))
}

fn at_both_ends(page: &mut Page, edition: u8, (width, core): (u8, u8), number: u8) {
    let state = at_number(core, number);
    let octets = frame_octets(edition, width, 16);
    let call = encode_fitting(state, 1, edition, width, samples(16));
    page.due(Due::Done(octets), call);
    let frame = in_edition(edition, number, plain(width, core));
    page.due(Due::Done(16), decode_fitting(state, 1, frame));
}

/// One less, one more, half of all numbers off, and the one with the bits the other way round.
fn others(page: &mut Page, (width, core): (u8, u8), due: u8) {
    for borne in [due.wrapping_sub(1), due.wrapping_add(1), due ^ 128, !due] {
        let frame = in_edition(2, borne, plain(width, core));
        let call = decode(at_number(core, due), 0, frame, room(17));
        page.due(Due::Refused(10), call);
    }
}

fn kept(page: &mut Page, (width, core): (u8, u8), number: u8) {
    for target in core..=width {
        let [frame, thin] = [width, target].map(|x| in_edition(2, number, plain(x, core)));
        page.due(Due::Out(thin), drop(frame, target, room(14)));
    }
}
