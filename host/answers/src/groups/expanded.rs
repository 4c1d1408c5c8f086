//! G.711 octets beside their levels: the call of a law and the linear call of what EXPAND gives. Tests hold the lines of a four to each
//! other: the frame and the state are the same, and both decoders come to one state.

use super::linear_parts::{decode_linear_fitting, encode_linear_fitting};
use super::parts::{decode_fitting, editions_and_pairs, encode_fitting, frame_octets};
use super::states::likely_state;
use crate::page::Page;
use random::Random;
use second::calls;
use second::g711::{expand, Law};
use second::state::State;

pub fn expanded(page: &mut Page) {
    page.group(
        "expanded",
        "at every pair in both editions octets encoded, their levels encoded, and the frame decoded to the law and to linear samples: all 256 octets from reset, and some from drawn states; from seed 38",
    );
    let mut random = Random::new(38);
    for (edition, width, core) in editions_and_pairs() {
        // So both laws have each pair.
        let law = Law::BOTH[usize::from(edition - 1)];
        let octets = (0..=255).collect();
        four(page, law, edition, width, State::reset(core), octets);
        let other = Law::BOTH[usize::from(2 - edition)];
        let (state, octets) = (likely_state(&mut random, core), random.bytes(24));
        four(page, other, edition, width, state, octets);
    }
}

fn four(page: &mut Page, law: Law, edition: u8, width: u8, state: State, octets: Vec<u8>) {
    let levels = octets.iter().map(|&o| expand(law, o) as i16).collect();
    let mut sent = vec![0; frame_octets(edition, width, octets.len())];
    let law = law.number();
    calls::encode(state, law, edition, width, &octets, &mut sent);
    page.ask(encode_fitting(state, law, edition, width, octets));
    page.ask(encode_linear_fitting(state, edition, width, levels));
    page.ask(decode_fitting(state, law, sent.clone()));
    page.ask(decode_linear_fitting(state, sent));
}
