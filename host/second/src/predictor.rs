//! The adaptive predictor and its detectors: FMULT and ACCUM for the estimates, UPB, UPA1, UPA2,
//! LIMC and LIMD for the coefficients (section 6.2.7), TONE and TRANS (6.2.9).
//! Coefficients are signed 16-bit numbers that wrap; only LIMC and LIMD hold them back.

use crate::float::{multiply, Float};
use crate::state::State;

/// SE and SEZ of ACCUM, as signed 15-bit numbers.
pub fn estimates(state: &State) -> (i32, i32) {
    let zeros: i32 = (0..6).map(|i| product(state.b[i], state.dq[i])).sum();
    let poles = product(state.a1, state.sr1) + product(state.a2, state.sr2);
    (halved_word(zeros + poles), halved_word(zeros))
}

fn product(coefficient: u16, signal: u16) -> i32 {
    multiply(coefficient as i16, Float::from_word(signal))
}

/// Sums are kept modulo 65,536 and read as signed before their last bit is dropped.
fn halved_word(sum: i32) -> i32 {
    i32::from(sum as i16 >> 1)
}

/// A coefficient after its leak and its gain, modulo 65,536.
fn leaked(coefficient: i16, leak_shift: u32, gain: i32) -> i16 {
    coefficient
        .wrapping_sub(coefficient >> leak_shift)
        .wrapping_add(gain as i16)
}

/// XOR and UPB for one of the six: the gain has the sign of the two differences' product.
pub fn next_b(coefficient: u16, past: u16, dq: i32) -> u16 {
    let alike = (dq < 0) == Float::from_word(past).negative;
    let gain = match (dq, alike) {
        (0, _) => 0,
        (_, true) => 128,
        (_, false) => -128,
    };
    leaked(coefficient as i16, 8, gain) as u16
}

const A2_LIMIT: i16 = 12_288;
/// One less 1/16, which the sum of both pole coefficients may not exceed.
const STABLE: i16 = 15_360;

/// A1 and A2 before TRIGB. `partial` is DQ + SEZ, whose sign is PK0; where it is 0 there is
/// no gain (SIGPK of ADDC).
pub fn next_poles(state: &State, partial: i32) -> (i16, i16) {
    let alike1 = (partial < 0) == (state.pk1 == 1);
    let alike2 = (partial < 0) == (state.pk2 == 1);
    let (gain1, gain2) = match partial {
        0 => (0, 0),
        _ => (a1_gain(alike1), a2_gain(state.a1 as i16, alike1, alike2)),
    };
    let a2 = leaked(state.a2 as i16, 7, gain2).clamp(-A2_LIMIT, A2_LIMIT);
    let bound = STABLE - a2;
    let a1 = leaked(state.a1 as i16, 8, gain1).clamp(-bound, bound);
    (a1, a2)
}

fn a1_gain(alike1: bool) -> i32 {
    if alike1 {
        192
    } else {
        -192
    }
}

/// UGA2: f(a1) is four times a1, held just below one half.
fn a2_gain(a1: i16, alike1: bool, alike2: bool) -> i32 {
    let f = 4 * i32::from(a1.clamp(-8_191, 8_191));
    let direct = if alike2 { 16_384 } else { -16_384 };
    let crossed = if alike1 { -f } else { f };
    (direct + crossed) >> 7
}

/// TONE: a second pole coefficient below -0.71875.
pub fn is_tone(a2: i16) -> bool {
    a2 < -11_776
}

/// TRANS: after a tone, a difference above three quarters of the slow scale's threshold.
/// The threshold ends at 31 << 9, where G.726, whose DQ has one bit more, goes twice as far.
pub fn is_transition(state: &State, dq: i32) -> bool {
    let whole = state.yl >> 15;
    let fraction = (state.yl >> 10 & 31) as i32;
    let threshold = match whole {
        0..=8 => (32 + fraction) << whole,
        _ => 31 << 9,
    };
    state.td == 1 && dq.abs() > (threshold + (threshold >> 1)) >> 1
}
