//! SYNC at the ends of either scale, where a byte can disagree with the received codeword and have nowhere to go.

use super::parts::{decode_fitting, encode_fitting, frame, frame_octets};
use super::states::drawn_codewords;
use crate::page::Page;
use random::states::{any_state, PAIRS};
use random::Random;
use second::calls;
use second::g711::Law;
use second::sample;
use second::state::State;

/// The most positive octet of a law and the most negative one.
pub fn ends_of(law: Law) -> [u8; 2] {
    match law {
        Law::Mu => [0x80, 0x00],
        Law::A => [0xAA, 0x2A],
    }
}

/// How SYNC and an end of the scale meet.
#[derive(Clone, Copy, Debug, PartialEq, Eq, PartialOrd, Ord)]
pub enum Meeting {
    /// It would have to go beyond the end, and stays.
    Held,
    /// It goes from the end one level inwards.
    TurnedBack,
    /// It agrees at the end.
    Agreed,
    /// It comes to the end from the level next to it.
    Reached,
}

pub const MEETINGS: [Meeting; 4] = [
    Meeting::Held,
    Meeting::TurnedBack,
    Meeting::Agreed,
    Meeting::Reached,
];

/// Which end the sample meets, and how; none where it meets no end.
pub fn meeting(state: &State, law: Law, width: u8, codeword: u8) -> Option<(u8, Meeting)> {
    let found = sample::decode(state, law, width, codeword);
    let (from, to) = (found.compressed, found.byte);
    let is_end = |octet| ends_of(law).contains(&octet);
    match (is_end(from), is_end(to)) {
        (true, true) if found.disagrees => Some((from, Meeting::Held)),
        (true, true) => Some((from, Meeting::Agreed)),
        (true, false) => Some((from, Meeting::TurnedBack)),
        (false, true) => Some((to, Meeting::Reached)),
        (false, false) => None,
    }
}

pub fn ends(page: &mut Page) {
    page.group(
        "ends",
        "SYNC at the ends of either scale, and loud streams from reset; from seed 35",
    );
    let mut random = Random::new(35);
    for law in Law::BOTH {
        at_greatest_scale(page, law);
        every_meeting(page, &mut random, law);
        outermost_codewords(page, &mut random, law);
    }
    for pair in PAIRS {
        full_scale(page, pair);
    }
}

fn outermost(width: u8) -> [u8; 2] {
    let half = 1 << (width - 1);
    [half - 1, half]
}

/// AP is 0, so Y is 5,120 by YL alone. The difference is then 12,800 in size, beyond either scale.
fn at_greatest_scale(page: &mut Page, law: Law) {
    for core in 2..=4 {
        let state = State {
            yl: 327_680,
            ..State::reset(core)
        };
        for codeword in outermost(5) {
            let codewords = [codeword, 0, 0, 0, 0, 0, 0, 0];
            let sent = frame(5, core, &codewords);
            page.ask(decode_fitting(state, law.number(), sent));
        }
    }
}

/// The first sample meets either end in each of the four ways.
fn every_meeting(page: &mut Page, random: &mut Random, law: Law) {
    for end in ends_of(law) {
        for due in MEETINGS {
            let (state, width, codeword) = drawn(random, |state, width, codeword| {
                meeting(state, law, width, codeword) == Some((end, due))
            });
            let codewords = drawn_codewords(random, width, codeword);
            let sent = frame(width, state.core, &codewords);
            page.ask(decode_fitting(state, law.number(), sent));
        }
    }
}

/// A state, a width and a codeword, drawn until they are as asked for.
fn drawn(random: &mut Random, asked: impl Fn(&State, u8, u8) -> bool) -> (State, u8, u8) {
    loop {
        let (width, core) = PAIRS[random.below(9) as usize];
        let state = any_state(random, core);
        let codeword = random.below(1 << width) as u8;
        if asked(&state, width, codeword) {
            return (state, width, codeword);
        }
    }
}

/// What no encoder sends: the outermost codewords only, with drawn signs.
fn outermost_codewords(page: &mut Page, random: &mut Random, law: Law) {
    for (width, core) in PAIRS {
        let codewords = [0; 320].map(|_: u8| outermost(width)[random.below(2) as usize]);
        let sent = frame(width, core, &codewords);
        page.ask(decode_fitting(State::reset(core), law.number(), sent));
    }
}

/// An A-law sender at full scale, which is beyond mu-law's, and a hearer of either law.
fn full_scale(page: &mut Page, (width, core): (u8, u8)) {
    let state = State::reset(core);
    let samples = ends_of(Law::A).repeat(160);
    let mut sent = vec![0; frame_octets(1, width, samples.len())];
    calls::encode(state, Law::A.number(), 1, width, &samples, &mut sent);
    page.ask(encode_fitting(state, Law::A.number(), 1, width, samples));
    for law in Law::BOTH {
        page.ask(decode_fitting(state, law.number(), sent.clone()));
    }
}
