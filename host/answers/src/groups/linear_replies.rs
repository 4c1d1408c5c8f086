//! The replies of the linear calls, one fault at a time, and how far a sample may go.

use super::linear_parts::{decode_linear, encode_linear, linear_room, linear_samples};
use super::parts::{
    at_number, frame_octets, head_octets, in_edition, octets, room, unfit, EDITIONS,
};
use crate::due::Due;
use crate::page::Page;
use random::states::PAIRS;
use second::state::State;

pub fn linear_replies(page: &mut Page) {
    page.group(
        "linear-replies",
        "every reply of the linear calls, with one fault each, and samples at the ends of the scale and past them",
    );
    requests(page);
    counts(page);
    edges(page);
    headers(page);
    lengths(page);
    numbers(page);
}

fn done_if(holds: bool, written: usize, otherwise: u8) -> Due {
    if holds {
        Due::Done(written)
    } else {
        Due::Refused(otherwise)
    }
}

/// The state, editions and widths.
fn requests(page: &mut Page) {
    let asked = |state: State, edition: u8, width: u8| {
        encode_linear(state, edition, width, linear_samples(16), room(14))
    };
    page.due(Due::Refused(4), asked(unfit(3), 1, 5));
    for edition in [0, 1, 2, 3, 4, 65, 127, 128, 255] {
        let due = done_if(EDITIONS.contains(&edition), head_octets(edition) + 10, 5);
        page.due(due, asked(at_number(3, 9), edition, 5));
    }
    for core in 2..=4 {
        for width in (1..=6).chain([255]) {
            let pair = PAIRS.contains(&(width, core));
            let due = done_if(pair, 2 + 2 * usize::from(width), 1);
            page.due(due, asked(State::reset(core), 1, width));
        }
    }
}

fn counts(page: &mut Page) {
    for edition in EDITIONS {
        for count in [0, 1, 7, 8, 9, 319, 320, 321, 328] {
            let sound = count % 8 == 0 && (8..=320).contains(&count);
            let due = done_if(sound, frame_octets(edition, 5, count), 2);
            let samples = linear_samples(count);
            page.due(
                due,
                encode_linear(State::reset(2), edition, 5, samples, room(205)),
            );
        }
    }
}

const ABOUT_THE_ENDS: [i16; 6] = [-32_768, -8_193, -8_192, 8_191, 8_192, 32_767];

/// One sample at an end or past it among others, as the first and as the last; and as every sample of a count that no frame has,
/// which is told before.
fn edges(page: &mut Page) {
    for sample in ABOUT_THE_ENDS {
        let on_scale = (-8_192..=8_191).contains(&sample);
        for count in [8, 320] {
            for place in [0, count - 1] {
                let mut samples = linear_samples(count);
                samples[place] = sample;
                let due = done_if(on_scale, 2 + 4 * count / 8, 11);
                page.due(
                    due,
                    encode_linear(State::reset(3), 1, 4, samples, room(163)),
                );
            }
        }
        for count in [7, 328] {
            let samples = vec![sample; count];
            page.due(
                Due::Refused(2),
                encode_linear(State::reset(3), 1, 4, samples, room(170)),
            );
        }
    }
}

/// A state out of range, every edition, every width and core from 1 to 6, groups at their limits.
fn headers(page: &mut Page) {
    let asked = |state: State, first: u8, groups: u8| {
        let planes = usize::from(first >> 3 & 7) * usize::from(groups);
        let frame = in_edition(first >> 6, 0, octets(first, groups, 2 + planes));
        let samples = 8 * usize::from(groups.min(40));
        decode_linear(state, frame, linear_room(samples + 1))
    };
    page.due(Due::Refused(4), asked(unfit(3), 0x6B, 2));
    for edition in 0..4_u8 {
        let due = done_if(EDITIONS.contains(&edition), 16, 5);
        page.due(due, asked(State::reset(3), edition << 6 | 0x2B, 2));
    }
    for (width, core) in (1..=6).flat_map(|width| (1..=6).map(move |core| (width, core))) {
        let due = match (PAIRS.contains(&(width, core)), core) {
            (false, _) => Due::Refused(1),
            (true, 3) => Due::Done(8),
            _ => Due::Refused(7),
        };
        let edition = EDITIONS[usize::from(width % 2)];
        let first = edition << 6 | width << 3 | core;
        page.due(due, asked(State::reset(3), first, 1));
    }
    for groups in [0, 1, 40, 41, 255] {
        let sound = (1..=40).contains(&groups);
        let due = done_if(sound, 8 * usize::from(groups), 2);
        page.due(due, asked(State::reset(2), 0x52, groups));
    }
}

/// Frames from no octet to one too many, and buffers counted in samples: neither half of them nor twice as many are due.
fn lengths(page: &mut Page) {
    for edition in EDITIONS {
        let whole = frame_octets(edition, 3, 16);
        let frame = |length: usize| {
            let mut octets = in_edition(edition, 0, octets(0x5A, 2, 12));
            octets.truncate(length);
            octets
        };
        for length in [0, 1, 2, 3, whole - 1, whole, whole + 1] {
            let due = done_if(length == whole, 16, if length < 2 { 5 } else { 6 });
            page.due(
                due,
                decode_linear(State::reset(2), frame(length), linear_room(16)),
            );
        }
        for samples in [0, 1, 8, 15, 16, 17, 32] {
            let due = done_if(samples >= 16, 16, 3);
            let out = linear_room(samples);
            page.due(due, decode_linear(State::reset(2), frame(whole), out));
        }
    }
}

fn numbers(page: &mut Page) {
    for due in [0, 255] {
        for number in [0, 1, 254, 255] {
            let frame = in_edition(2, number, octets(0x63, 2, 10));
            let reply = done_if(number == due, 16, 10);
            page.due(
                reply,
                decode_linear(at_number(3, due), frame, linear_room(16)),
            );
        }
    }
}
