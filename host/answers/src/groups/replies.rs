//! Every reply of every call, one fault at a time, for every value that has the fault.

use super::parts::{
    at_number, decode, drop, editions_and_pairs, encode, head, head_octets, in_edition, octets,
    room, samples, unfit,
};
use crate::call::Call;
use crate::due::Due;
use crate::page::Page;
use random::states::PAIRS;
use second::state::State;

pub fn replies(page: &mut Page) {
    page.group("replies", "every reply of every call, with one fault each");
    resets(page);
    encoding(page);
    decoding(page);
    headers(page);
    lengths(page);
    targets(page);
}

/// Core 2's state is handed back by a refused reset; the rules' table has its numbers.
fn resets(page: &mut Page) {
    for core in 0..=255 {
        let number = if (2..=4).contains(&core) { 0 } else { 1 };
        let due = if number == 0 {
            Due::Done(0)
        } else {
            Due::Refused(1)
        };
        page.due(due, Call::Reset(core));
    }
}

fn encoding(page: &mut Page) {
    let call = |state, law, width, count, length| {
        encode(state, law, 1, width, samples(count), room(length))
    };
    let core = 3;
    page.due(Due::Refused(4), call(unfit(core), 0, 5, 16, 14));
    for edition in 0..=255 {
        let due = match edition {
            1 | 2 => Due::Done(head_octets(edition) + 10),
            _ => Due::Refused(5),
        };
        let asked = encode(at_number(core, 9), 0, edition, 5, samples(16), room(14));
        page.due(due, asked);
    }
    for law in [2, 3, 127, 128, 254, 255] {
        page.due(Due::Refused(9), call(State::reset(core), law, 5, 16, 14));
    }
    for core in 2..=4 {
        for width in (0..=8).chain([13, 69, 255]) {
            let pair = PAIRS.contains(&(width, core));
            let done = Due::Done(2 + 2 * usize::from(width));
            let due = if pair { done } else { Due::Refused(1) };
            page.due(due, call(State::reset(core), 0, width, 16, 14));
        }
    }
    page.due(Due::Refused(2), call(State::reset(core), 0, 5, 12, 14));
    page.due(Due::Refused(3), call(State::reset(core), 0, 5, 16, 11));
    page.due(Due::Done(12), call(State::reset(core), 0, 5, 16, 12));
}

fn decoding(page: &mut Page) {
    let frame = || octets(0x63, 2, 10);
    page.due(Due::Refused(4), decode(unfit(3), 0, frame(), room(17)));
    for law in [2, 3, 127, 128, 254, 255] {
        page.due(
            Due::Refused(9),
            decode(State::reset(3), law, frame(), room(17)),
        );
    }
    page.due(
        Due::Refused(3),
        decode(State::reset(3), 0, frame(), room(15)),
    );
    page.due(Due::Done(16), decode(State::reset(3), 0, frame(), room(16)));
    for number in 0..=255 {
        let due = match number {
            9 => Due::Done(16),
            _ => Due::Refused(10),
        };
        let frame = in_edition(2, number, frame());
        page.due(due, decode(at_number(3, 9), 0, frame, room(16)));
    }
}

/// Every first octet of a frame, with as many planes as its x says.
fn headers(page: &mut Page) {
    for first in 0..=255_u8 {
        let (edition, width, core) = (first >> 6, first >> 3 & 7, first & 7);
        let pair = PAIRS.contains(&(width, core));
        let wrong = match (edition, pair) {
            (1 | 2, true) => None,
            (1 | 2, false) => Some(1),
            _ => Some(5),
        };
        let length = head_octets(edition) + usize::from(width);
        let frame = || in_edition(edition, 0, octets(first, 1, 2 + usize::from(width)));
        let other_core = if core == 3 {
            Due::Done(8)
        } else {
            Due::Refused(7)
        };
        let decoded = wrong.map_or(other_core, Due::Refused);
        page.due(decoded, decode(State::reset(3), 0, frame(), room(9)));
        let thinned = wrong.map_or(Due::Done(length), Due::Refused);
        page.due(thinned, drop(frame(), width, room(11)));
    }
}

/// A frame of three groups at every pair, one octet too short, right, and too long.
fn lengths(page: &mut Page) {
    for (edition, width, core) in editions_and_pairs() {
        let due = head_octets(edition) + 3 * usize::from(width);
        for length in [due - 1, due, due + 1, due + 3] {
            let frame = || {
                let mut octets = in_edition(edition, 0, octets(head(width, core), 3, length));
                octets.truncate(length);
                octets
            };
            let answer = |done: usize| {
                if length == due {
                    Due::Done(done)
                } else {
                    Due::Refused(6)
                }
            };
            page.due(answer(24), decode(State::reset(core), 1, frame(), room(25)));
            page.due(answer(due), drop(frame(), width, room(20)));
        }
    }
}

/// Every target at every pair.
fn targets(page: &mut Page) {
    for (edition, width, core) in editions_and_pairs() {
        for target in (0..=7).chain([8 + core, 255]) {
            let plain = octets(head(width, core), 1, 2 + usize::from(width));
            let frame = in_edition(edition, target, plain);
            let done = Due::Done(head_octets(edition) + usize::from(target));
            let due = if (core..=width).contains(&target) {
                done
            } else {
                Due::Refused(8)
            };
            page.due(due, drop(frame, target, room(9)));
        }
    }
}
