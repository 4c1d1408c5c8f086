//! Widths that change and planes that are dropped. Tests hold these lines to each other: a thinned frame is the narrower
//! encoder's, the decoder's state is the encoder's, two halves are one whole.

use super::parts::{
    at_number, decode_fitting, drop, editions_and_pairs, encode_fitting, frame_octets, head,
    in_edition, octets, pattern, room, samples,
};
use crate::due::Due;
use crate::page::Page;
use second::calls;
use second::state::State;

pub fn copies(page: &mut Page) {
    page.group(
        "copies",
        "dropping to the present width copies the frame, at every pair in both editions",
    );
    for (edition, width, core) in editions_and_pairs() {
        let plain = octets(head(width, core), 3, frame_octets(1, width, 24));
        let frame = in_edition(edition, 0xB4, plain);
        page.due(Due::Out(frame.clone()), drop(frame, width, room(20)));
    }
}

/// The octets that the second codec writes, and its state behind them.
fn coded(state: State, law: u8, edition: u8, width: u8, samples: &[u8]) -> (Vec<u8>, State) {
    let mut out = vec![0; frame_octets(edition, width, samples.len())];
    let answer = calls::encode(state, law, edition, width, samples, &mut out);
    (out, answer.state)
}

pub fn dropped(page: &mut Page) {
    page.group(
        "dropped",
        "for each pair in both editions: encoded at 5, encoded at its width, and the first one dropped to it",
    );
    for (edition, width, core) in editions_and_pairs() {
        let (s, speech) = (at_number(core, 0x2D), samples(160));
        let (whole, _) = coded(s, 0, edition, 5, &speech);
        page.ask(encode_fitting(s, 0, edition, 5, speech.clone()));
        page.ask(encode_fitting(s, 0, edition, width, speech));
        let out = vec![0xEE; frame_octets(edition, width, 160)];
        page.ask(drop(whole, width, out));
    }
}

pub fn changed(page: &mut Page) {
    page.group("changed", "for each pair in both editions: a frame at 5 and one at its width, each encoded and decoded to the other law");
    for (edition, width, core) in editions_and_pairs() {
        let mut s = State::reset(core);
        for width in [5, width] {
            let speech = samples(160);
            let (frame, next) = coded(s, 0, edition, width, &speech);
            page.ask(encode_fitting(s, 0, edition, width, speech));
            page.ask(decode_fitting(s, 1, frame));
            s = next;
        }
    }
}

/// After 160 steps of 0x1D from 0x35 the pattern stands at 0x55.
pub fn halves(page: &mut Page) {
    page.group(
        "halves",
        "for each core: 320 samples in one frame, and the same in two of 160",
    );
    for core in 2..=4 {
        let s = State::reset(core);
        let (early, late) = (samples(160), pattern(0x55, 0x1D, 160));
        let (_, middle) = coded(s, 1, 1, 4, &early);
        page.ask(encode_fitting(s, 1, 1, 4, samples(320)));
        page.ask(encode_fitting(s, 1, 1, 4, early));
        page.ask(encode_fitting(middle, 1, 1, 4, late));
    }
}
