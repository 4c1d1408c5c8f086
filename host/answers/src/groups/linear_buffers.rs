//! Buffers of the linear calls: just long enough, one octet or one sample less, one more.

use super::linear_parts::{decode_linear, encode_linear, linear_room, linear_samples};
use super::parts::{editions_and_pairs, frame_octets, head, in_edition, octets, room};
use crate::due::Due;
use crate::page::Page;
use second::state::State;

pub fn linear_buffers(page: &mut Page) {
    page.group(
        "linear-buffers",
        "prefilled buffers of the linear calls, due, one less and one more, at every pair in both editions; the decoder's counted in samples",
    );
    for (edition, width, core) in editions_and_pairs() {
        about(page, edition, (width, core), 16);
        if core == 4 {
            about(page, edition, (width, core), 320);
        }
    }
}

fn about(page: &mut Page, edition: u8, (width, core): (u8, u8), count: usize) {
    let state = State::reset(core);
    let due = |length: usize, whole: usize| {
        if length < whole {
            Due::Refused(3)
        } else {
            Due::Done(whole)
        }
    };
    let whole = frame_octets(edition, width, count);
    for length in [whole - 1, whole, whole + 1] {
        let samples = linear_samples(count);
        page.due(
            due(length, whole),
            encode_linear(state, edition, width, samples, room(length)),
        );
    }
    let groups = (count / 8) as u8;
    let plain = octets(head(width, core), groups, frame_octets(1, width, count));
    let frame = in_edition(edition, 0, plain);
    for length in [count - 1, count, count + 1] {
        let out = linear_room(length);
        page.due(due(length, count), decode_linear(state, frame.clone(), out));
    }
}
