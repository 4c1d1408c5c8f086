//! Linear samples at zero, at both ends of the scale and past them: what goes in there, and what comes out there or is held.

use super::linear_parts::{
    decode_linear_fitting, encode_linear_fitting, heard, linear_samples, sent, GREATEST, LEAST,
};
use super::parts::frame;
use super::states::drawn_codewords;
use crate::due::Due;
use crate::page::Page;
use random::states::{any_state, PAIRS};
use random::Random;
use second::end::End;
use second::engine::estimate;
use second::quantizer::reconstruct;
use second::state::State;

pub fn linear_ends(page: &mut Page) {
    page.group(
        "linear-ends",
        "linear samples at zero, at both ends and past them, in and out; loud and silent frames from reset; from seed 36",
    );
    let mut random = Random::new(36);
    first_samples(page);
    at_greatest_scale(page);
    for signal in SIGNALS {
        at_signal(page, &mut random, signal);
    }
    for pair in PAIRS {
        outermost_codewords(page, &mut random, pair);
        there_and_back(page, pair);
    }
}

/// By hand, from reset at width 5: Y is 544 and the estimate 0, so that DLN is the logarithm less 136. 0 and 1 have the logarithm 0, 2
/// has 128, 3 has 192, and either end is far above the last threshold.
const FIRST: [(i16, u8); 10] = [
    (0, 0b00000),
    (1, 0b00000),
    (-1, 0b11111),
    (2, 0b00001),
    (-2, 0b11110),
    (3, 0b00010),
    (GREATEST - 1, 0b01111),
    (GREATEST, 0b01111),
    (LEAST + 1, 0b10000),
    (LEAST, 0b10000),
];

fn first_samples(page: &mut Page) {
    for core in 2..=4 {
        for (sample, codeword) in FIRST {
            let mut samples = linear_samples(8);
            samples[0] = sample;
            let call = encode_linear_fitting(State::reset(core), 1, 5, samples);
            page.due(Due::First(codeword), call);
        }
    }
}

/// By hand, from Table 15 and ANTILOG: at Y = 5,120 and an estimate of 0 the levels 456, 391 and 367 stand for 12,800, 8,640 and 7,648.
const AT_GREATEST_SCALE: [(u8, i16); 6] = [
    (0b01111, GREATEST),
    (0b01101, GREATEST),
    (0b01100, 7_648),
    (0b10011, -7_648),
    (0b10010, LEAST),
    (0b10000, LEAST),
];

fn at_greatest_scale(page: &mut Page) {
    for core in 2..=4 {
        let state = State {
            yl: 327_680,
            ..State::reset(core)
        };
        for (codeword, sample) in AT_GREATEST_SCALE {
            let sent = frame(5, core, &[codeword, 0, 0, 0, 0, 0, 0, 0]);
            page.due(Due::FirstSample(sample), decode_linear_fitting(state, sent));
        }
    }
}

/// Reconstructed signals at zero, at the ends, just past them and far past them.
const SIGNALS: [i32; 17] = [
    -20_000, -16_384, -8_194, -8_193, -8_192, -8_191, -2, -1, 0, 1, 2, 8_190, 8_191, 8_192, 8_193,
    16_384, 20_000,
];

/// A drawn state and a codeword whose signal is this one, first of eight.
fn at_signal(page: &mut Page, random: &mut Random, signal: i32) {
    let (state, width, codeword) = loop {
        let (width, core) = random.pick(&PAIRS);
        let state = any_state(random, core);
        let now = estimate(&state);
        let due = signal - now.se;
        let mut codewords = 0..1_u8 << width;
        if let Some(found) = codewords.find(|&c| reconstruct(width, c, now.y) == due) {
            break (state, width, found);
        }
    };
    let codewords = drawn_codewords(random, width, codeword);
    let held = signal.clamp(LEAST.into(), GREATEST.into()) as i16;
    let sent = frame(width, state.core, &codewords);
    page.due(Due::FirstSample(held), decode_linear_fitting(state, sent));
}

/// What no encoder sends: the outermost codewords only, with drawn signs.
fn outermost_codewords(page: &mut Page, random: &mut Random, (width, core): (u8, u8)) {
    let half = 1_u8 << (width - 1);
    let codewords = [0; 320].map(|_: u8| random.pick(&[half - 1, half]));
    let sent = frame(width, core, &codewords);
    page.ask(decode_linear_fitting(State::reset(core), sent));
}

/// From one end to the other at every sample, at every tenth, and silence; each as one frame, encoded and decoded.
fn there_and_back(page: &mut Page, (width, core): (u8, u8)) {
    let square = |half_wave: usize| {
        let ends = [LEAST, GREATEST].map(i32::from);
        (0..160).map(move |n| ends[n / half_wave % 2])
    };
    for levels in [square(1).collect(), square(10).collect(), vec![0; 80]] {
        let levels: Vec<i32> = levels;
        let state = State::reset(core);
        let sent = sent(End::Linear, state, 1, width, &levels);
        page.ask(sent.call);
        page.ask(heard(End::Linear, state, sent.frame));
    }
}
