//! COMPRESS and SYNC: signals at, below and above every decision value of either law, and states as speech leaves them, at
//! every pair.

use super::parts::{decode_fitting, frame};
use super::states::{at_scale, drawn_codewords, likely_state};
use crate::page::Page;
use random::states::{any_state, PAIRS};
use random::Random;
use second::engine::estimate;
use second::g711::{expand, Law};
use second::quantizer::reconstruct;
use second::state::State;
use std::collections::BTreeMap;

pub fn decisions(page: &mut Page) {
    page.group(
        "decisions",
        "COMPRESS: the first signal at each decision value and one off, either law and sign",
    );
    let estimates = estimates();
    for law in Law::BOTH {
        let mut levels: Vec<i32> = (0..=255).map(|octet| expand(law, octet)).collect();
        levels.sort_unstable();
        for (round, pair) in levels.windows(2).enumerate() {
            let middle = (pair[0] + pair[1]).div_euclid(2);
            for signal in [middle, middle + 1] {
                at_signal(page, &estimates, law, signal, round);
            }
        }
        for signal in [-16_384, -8_192, -8_160, -8_159, 8_159, 8_160, 8_192, 16_383] {
            at_signal(page, &estimates, law, signal, 7);
        }
    }
}

/// B1 and DQ1 whose product alone makes the estimate. Not every estimate can be had so.
type Estimates = BTreeMap<i32, (u16, u16)>;

fn estimates() -> Estimates {
    let signs = [0, 1_024];
    let words = (1..32).flat_map(|b| [1_u16, 2, 4, 8, 16].map(|by| 64 * b * by));
    let products = words.flat_map(|b| (0..15).map(move |exponent| (b, 64 * exponent)));
    let mut found = Estimates::new();
    for (b, exponent) in products {
        for word in (32..64)
            .step_by(3)
            .flat_map(|m| signs.map(|sign| sign + exponent + m))
        {
            let se = estimate(&with_product(State::reset(2), (b, word))).se;
            found.entry(se).or_insert((b, word));
        }
    }
    found
}

fn with_product(state: State, (b, dq): (u16, u16)) -> State {
    State {
        b: [b, 0, 0, 0, 0, 0],
        dq: [dq, 32, 32, 32, 32, 32],
        ..state
    }
}

/// A state whose estimate and a codeword's difference add up to the signal, where there is one.
fn at_signal(page: &mut Page, estimates: &Estimates, law: Law, signal: i32, round: usize) {
    let (width, core) = PAIRS[round % 9];
    let y = 544 + (round as u16 * 61) % 3_000;
    for codeword in 0..1 << width {
        let difference = reconstruct(width, codeword, y.into());
        if let Some(&product) = estimates.get(&(signal - difference)) {
            let state = with_product(at_scale(core, y), product);
            let mut codewords = [0; 8];
            codewords[0] = codeword;
            page.ask(decode_fitting(
                state,
                law.number(),
                frame(width, core, &codewords),
            ));
            return;
        }
    }
}

pub fn synchronous(page: &mut Page) {
    page.group(
        "synchronous",
        "SYNC at every pair and law, from states as speech leaves them and from any; from seed 13",
    );
    let mut random = Random::new(13);
    for round in 0..270 {
        let (width, core) = PAIRS[round % 9];
        let state = match round % 3 {
            0 => any_state(&mut random, core),
            _ => likely_state(&mut random, core),
        };
        let first = random.below(1 << width) as u8;
        let codewords = drawn_codewords(&mut random, width, first);
        for law in 0..2 {
            page.ask(decode_fitting(state, law, frame(width, core, &codewords)));
        }
    }
}
