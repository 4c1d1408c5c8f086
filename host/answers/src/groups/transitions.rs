//! TRANS: a tone with YL about every step of YLINT and YLFRAC, and a difference just below, at and just above the threshold.

use super::parts::{decode_fitting, frame};
use super::states::at_scale;
use crate::page::Page;
use second::quantizer::reconstruct;
use second::state::State;

/// Section 6.2.9: three quarters of the threshold that YL gives.
fn three_quarters(yl: u32) -> i32 {
    let (whole, fraction) = (yl >> 15, (yl >> 10 & 31) as i32);
    let threshold = if whole > 8 {
        31 << 9
    } else {
        (32 + fraction) << whole
    };
    (threshold + threshold / 2) / 2
}

/// A difference that some core codeword gives: its size, the scale factor and the codeword's magnitude.
type Reached = (i32, u16, u8);

fn all_reached(core: u8) -> Vec<Reached> {
    let magnitudes = 0..1_u8 << (core - 1);
    let mut reached: Vec<Reached> = (544..=5_120)
        .flat_map(|y| {
            magnitudes
                .clone()
                .map(move |m| (reconstruct(core, m, y.into()), y, m))
        })
        .collect();
    reached.sort_unstable();
    reached
}

pub fn transitions(page: &mut Page) {
    page.group(
        "transitions",
        "TRANS: TD = 1, YL about every step of YLINT and YLFRAC, DQ about the threshold",
    );
    let all: Vec<Vec<Reached>> = (2..=4).map(all_reached).collect();
    for (round, yl) in steps().into_iter().enumerate() {
        let core = 2 + (round % 3) as u8;
        about_threshold(page, &all[round % 3], core, yl, round);
    }
    without_tone(page);
}

/// The first and the last YL of each fraction, and of each whole part at every core.
fn steps() -> Vec<u32> {
    let fractions = (34 * 1_024..=327_680).step_by(1_024);
    let whole = (2..=10).flat_map(|n| [0, 0, 0].map(|_| n << 15));
    let mut steps: Vec<u32> = fractions.chain(whole).flat_map(|yl| [yl - 1, yl]).collect();
    steps.retain(|yl| (34_816..=327_680).contains(yl));
    steps
}

/// The greatest difference that is no transition, and the least that is one.
fn about_threshold(page: &mut Page, reached: &[Reached], core: u8, yl: u32, round: usize) {
    let most = three_quarters(yl);
    let split = reached.partition_point(|&(size, ..)| size <= most);
    let about = [split.checked_sub(1), Some(split)];
    for place in about.into_iter().flatten() {
        if let Some(&(_, y, magnitude)) = reached.get(place) {
            let first = if round.is_multiple_of(2) {
                magnitude
            } else {
                (1 << core) - 1 - magnitude
            };
            decoded(page, tone(core, yl, y), first);
        }
    }
}

fn tone(core: u8, yl: u32, y: u16) -> State {
    State {
        yl,
        td: 1,
        a1: 3_000,
        a2: 53_000,
        b: [100, 200, 300, 400, 500, 600],
        ..at_scale(core, y)
    }
}

/// The first codeword decides; what follows is faint.
fn decoded(page: &mut Page, state: State, first: u8) {
    let codewords = [first, 0, 0, 0, 0, 0, 0, 0];
    page.ask(decode_fitting(
        state,
        0,
        frame(state.core, state.core, &codewords),
    ));
}

/// The same difference with and without a tone before it.
fn without_tone(page: &mut Page) {
    for core in 2..=4 {
        for td in [0, 1] {
            let state = State {
                td,
                ..tone(core, 100_000, 5_120)
            };
            decoded(page, state, (1 << (core - 1)) - 1);
        }
    }
    page.note("TD 1, YL 262144, YU 5120, AP 512, core 4, codeword 7 gives AP 256");
    let state = State {
        yl: 262_144,
        td: 1,
        ..at_scale(4, 5_120)
    };
    decoded(page, state, 7);
}
