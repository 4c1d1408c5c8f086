//! UPA1, UPA2, LIMC, LIMD, TONE and ADDC: A1 about 8,191 and its limit, A2 about 12,288 and the tone's -11,776, every
//! combination of the signs PK, and the partial signal at 0.

use super::parts::{decode_fitting, frame};
use super::states::{at_scale, drawn_codewords};
use crate::page::Page;
use random::Random;
use second::engine::{advance, estimate};
use second::quantizer::reconstruct;
use second::state::State;

fn signed(value: i32) -> u16 {
    value as i16 as u16
}

/// Just so far from an edge that one step of at most 192 and its leak may or may not cross it.
fn about(random: &mut Random, edge: i32) -> i32 {
    edge + match random.below(3) {
        0 => random.below(5) as i32 - 2,
        _ => random.below(700) as i32 - 350,
    }
}

pub fn poles(page: &mut Page) {
    page.group(
        "poles",
        "UPA1, UPA2, LIMC, LIMD: A1 and A2 about their limits with all signs; from seed 11",
    );
    let mut random = Random::new(11);
    for round in 0..480 {
        let a2 = match round % 4 {
            0 => about(&mut random, 12_288),
            1 => about(&mut random, -12_288),
            2 => random.below(65_536) as i32 - 32_768,
            _ => random.below(24_577) as i32 - 12_288,
        };
        let bound = 15_360 - a2.clamp(-12_288, 12_288);
        let a1 = match round % 5 {
            0 => about(&mut random, bound),
            1 => about(&mut random, -bound),
            2 => random.pick(&[8_190, 8_191, 8_192, 8_193, -8_190, -8_191, -8_192, -8_193]),
            3 => random.below(65_536) as i32 - 32_768,
            _ => random.below(2 * bound as u64 + 1) as i32 - bound,
        };
        one(page, &mut random, round, a1, a2);
    }
}

pub fn tones(page: &mut Page) {
    page.group(
        "tones",
        "TONE: A2 so that the next one is about -11,776, from seed 12; and just so far on either side",
    );
    let mut random = Random::new(12);
    for round in 0..120 {
        let a2 = about(&mut random, -11_868);
        let a1 = random.below(16_000) as i32 - 8_000;
        one(page, &mut random, round, a1, a2);
    }
    for core in 2..=4 {
        for next in -11_778..=-11_774 {
            let call = |state| decode_fitting(state, 0, frame(core, core, &[0; 8]));
            page.ask(call(before_a2(core, next)));
        }
    }
}

/// A state from which the codeword 0 leads to this A2. Scale and averages are steady, so that a tone alone makes AP rise.
fn before_a2(core: u8, next: i32) -> State {
    let with = |a2: i32| State {
        a2: signed(a2),
        dms: 500,
        dml: 2_000,
        ..at_scale(core, 1_600)
    };
    let leads = |state: &State| i32::from(advance(state, 0).a2 as i16) == next;
    let found = (-12_288..-11_000).map(with).find(leads);
    found.expect("an A2 that moves to any other near it")
}

/// PK1, PK2 and the sign of the first codeword take all their values in turn.
fn one(page: &mut Page, random: &mut Random, round: u64, a1: i32, a2: i32) {
    let core = 2 + (round % 3) as u8;
    let signs = random.below(8) as u16;
    let state = State {
        a1: signed(a1),
        a2: signed(a2),
        pk1: signs & 1,
        pk2: signs >> 1 & 1,
        ..at_scale(core, random.within(544, 5_120) as u16)
    };
    let state = if round.is_multiple_of(6) {
        with_cancelled_partial(state)
    } else {
        state
    };
    let first = if signs < 4 { 0 } else { (1 << core) - 1 };
    let codewords = drawn_codewords(random, core, first);
    page.ask(decode_fitting(
        state,
        (round % 2) as u8,
        frame(core, core, &codewords),
    ));
}

/// The zero predictor takes away just what the codeword 0 adds at the least scale factor, so that ADDC's sum is 0 there.
fn with_cancelled_partial(state: State) -> State {
    let size = reconstruct(state.core, 0, 544);
    let with = |word: u16| State {
        b: [word.wrapping_neg(), 0, 0, 0, 0, 0],
        dq: [64 * 5 + 32, 32, 32, 32, 32, 32],
        yu: 544,
        ..state
    };
    let cancels = |s: &State| estimate(s).sez == -size;
    let found = (0..=32_767).step_by(64).map(with).find(cancels);
    found.expect("a product as small as the least difference")
}
