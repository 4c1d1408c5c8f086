//! The rules' limit cases: counts of samples, lengths of the buffer, g, and the shortest frames.

use super::parts::{
    decode, drop, encode, head_octets, in_edition, octets, room, samples, EDITIONS,
};
use crate::due::Due;
use crate::page::Page;
use second::state::State;

pub fn limits(page: &mut Page) {
    page.group(
        "limits",
        "the rules' limit cases in both editions, at the limit and one past it",
    );
    for edition in EDITIONS {
        counts(page, edition);
        groups(page, edition);
        for length in 0..=6 {
            short_frames(page, edition, length);
        }
    }
}

fn counts(page: &mut Page, edition: u8) {
    for count in [0, 1, 7, 8, 9, 15, 16, 312, 319, 320, 321, 327, 328, 336] {
        let sound = count % 8 == 0 && (8..=320).contains(&count);
        page.note(format!("{count} samples in edition {edition}"));
        for law in 0..2 {
            let due = if sound {
                Due::Done(head_octets(edition) + 5 * count / 8)
            } else {
                Due::Refused(2)
            };
            page.due(
                due,
                encode(State::reset(2), law, edition, 5, samples(count), room(205)),
            );
        }
    }
}

fn groups(page: &mut Page, edition: u8) {
    let frame = |first: u8, groups: u8, planes: usize| {
        in_edition(edition, 0, octets(first, groups, 2 + planes))
    };
    for groups in [0, 1, 2, 39, 40, 41, 42, 128, 255_u8] {
        page.note(format!("g of {groups} in edition {edition}"));
        let sound = (1..=40).contains(&groups);
        let planes = usize::from(groups);
        let due = |octets: usize| {
            if sound {
                Due::Done(octets)
            } else {
                Due::Refused(2)
            }
        };
        let whole = frame(0x52, groups, 2 * planes);
        page.due(
            due(8 * planes),
            decode(State::reset(2), 0, whole, room(322)),
        );
        let wide = frame(0x6A, groups, 5 * planes);
        let thin = head_octets(edition) + 3 * planes;
        page.due(due(thin), drop(wide, 3, room(126)));
    }
}

/// What is left of a frame at (2,2) of one group, or such a frame with octets behind it.
fn short_frames(page: &mut Page, edition: u8, length: usize) {
    let whole = head_octets(edition) + 2;
    page.note(format!(
        "a frame of {length} octets, of which {whole} are due"
    ));
    let due = |done: usize| match length {
        0 | 1 => Due::Refused(5),
        _ if length == whole => Due::Done(done),
        _ => Due::Refused(6),
    };
    let frame = || {
        let mut octets = in_edition(edition, 0, octets(0x52, 1, 6));
        octets.truncate(length);
        octets
    };
    page.due(due(8), decode(State::reset(2), 1, frame(), room(9)));
    page.due(due(whole), drop(frame(), 2, room(6)));
}
