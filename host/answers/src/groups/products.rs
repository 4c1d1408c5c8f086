//! FMULT and ACCUM: coefficients of every size and sign times words of every exponent, and sums that leave sixteen bits.

use super::parts::{decode_fitting, encode_fitting, frame};
use super::states::{at_scale, drawn_codewords};
use crate::page::Page;
use random::states::{any_state, coefficient, PAIRS};
use random::Random;
use second::state::State;

/// Coefficients about the powers of two as FMULT sees them, four times as great, and the lowest words.
fn coefficients_tried() -> Vec<u16> {
    let powers = (0..=15).map(|bit| 1_u32 << bit);
    let about = powers.flat_map(|power| [power - 1, power, power + 1, power + 3]);
    let mut tried: Vec<u16> = about
        .flat_map(|word| [word as u16, (word as u16).wrapping_neg()])
        .collect();
    tried.extend([32_768, 32_769, 32_770, 32_771, 32_772, 32_773]);
    tried.sort_unstable();
    tried.dedup();
    tried
}

/// One product at a time, in each of the eight places in turn.
pub fn coefficients(page: &mut Page) {
    page.group("coefficients", "FMULT: coefficients about every power of two in each of the eight places; the rest from seed 8");
    let mut random = Random::new(8);
    for (round, word) in coefficients_tried().into_iter().enumerate() {
        for turn in 0..2 {
            let (width, core) = PAIRS[(round + turn) % 9];
            let mut state = at_scale(core, 544 + 97 * (round as u16 % 40));
            place_product(&mut state, &mut random, (round + 3 * turn) % 8, word);
            if turn == 0 {
                page.ask(encode_fitting(
                    state,
                    (round % 2) as u8,
                    1,
                    width,
                    random.bytes(8),
                ));
            } else {
                let first = random.below(1 << width) as u8;
                let codewords = drawn_codewords(&mut random, width, first);
                page.ask(decode_fitting(
                    state,
                    (round % 2) as u8,
                    frame(width, core, &codewords),
                ));
            }
        }
    }
}

fn place_product(state: &mut State, random: &mut Random, place: usize, word: u16) {
    match place {
        6 => {
            state.a1 = word;
            state.sr1 = random.float_word(15);
        }
        7 => {
            state.a2 = word;
            state.sr2 = random.float_word(15);
        }
        _ => {
            state.b[place] = word;
            state.dq[place] = random.float_word(14);
        }
    }
}

pub fn sums(page: &mut Page) {
    page.group("sums", "ACCUM: great products of one sign, whose sum leaves sixteen bits, and small odd ones; from seed 9");
    let mut random = Random::new(9);
    for round in 0..240 {
        let (width, core) = PAIRS[round % 9];
        let exponents = if round % 2 == 0 { 12 } else { 0 };
        let state = State {
            a1: coefficient(&mut random),
            a2: coefficient(&mut random),
            b: [0; 6].map(|_: u16| coefficient(&mut random)),
            dq: [0; 6].map(|_: u16| {
                (64 * (exponents + random.below(3))
                    + 1_024 * random.below(2)
                    + random.within(32, 63)) as u16
            }),
            ..any_state(&mut random, core)
        };
        page.ask(encode_fitting(
            state,
            (round % 2) as u8,
            1,
            width,
            random.bytes(8),
        ));
        let first = random.below(1 << width) as u8;
        let codewords = drawn_codewords(&mut random, width, first);
        page.ask(decode_fitting(
            state,
            (round / 2 % 2) as u8,
            frame(width, core, &codewords),
        ));
    }
}
