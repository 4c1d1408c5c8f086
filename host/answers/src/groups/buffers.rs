//! Buffers that hold something already, of every length about the due one and of some far from it.

use super::parts::{
    decode, drop, editions_and_pairs, encode, frame_octets, head, in_edition, octets, room,
    samples, EDITIONS,
};
use crate::due::Due;
use crate::page::Page;
use second::state::State;

pub fn buffers(page: &mut Page) {
    page.group(
        "buffers",
        "prefilled buffers of every length about the due one, in both editions",
    );
    for (edition, width, core) in editions_and_pairs() {
        let due = frame_octets(edition, width, 16);
        for length in about(due) {
            let out = room(length);
            let call = encode(State::reset(core), 1, edition, width, samples(16), out);
            page.due(done_within(due, length), call);
        }
        let plain = || octets(head(width, core), 2, frame_octets(1, width, 16));
        let frame = || in_edition(edition, 0, plain());
        for length in about(16) {
            let call = decode(State::reset(core), 0, frame(), room(length));
            page.due(done_within(16, length), call);
        }
        let thin = frame_octets(edition, core, 16);
        for length in about(thin) {
            page.due(done_within(thin, length), drop(frame(), core, room(length)));
        }
    }
    for edition in EDITIONS {
        longest(page, edition);
    }
}

fn about(due: usize) -> impl Iterator<Item = usize> {
    [0, 1, 2]
        .into_iter()
        .chain(due - 2..=due + 2)
        .chain([due + 30])
}

fn done_within(due: usize, length: usize) -> Due {
    if length < due {
        Due::Refused(3)
    } else {
        Due::Done(due)
    }
}

/// The longest frame and its samples.
fn longest(page: &mut Page, edition: u8) {
    let due = frame_octets(edition, 5, 320);
    let frame = || in_edition(edition, 0, octets(0x6C, 40, 202));
    for length in [due - 1, due, due + 1] {
        let call = encode(State::reset(4), 0, edition, 5, samples(320), room(length));
        page.due(done_within(due, length), call);
        let call = drop(frame(), 5, room(length));
        page.due(done_within(due, length), call);
    }
    for length in [319, 320, 321] {
        let call = decode(State::reset(4), 1, frame(), room(length));
        page.due(done_within(320, length), call);
    }
}
