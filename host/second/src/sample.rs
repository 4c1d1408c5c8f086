//! One sample encoded, and one decoded: to G.711 with the synchronous coding adjustment at the width
//! received (Recommendation, sections 4, 5 and 6.2.10), or to a linear sample without it.

use crate::engine::{advance, estimate, Estimate};
use crate::g711::{self, Law};
use crate::linear;
use crate::quantizer::{as_signed, quantize, reconstruct, thinned};
use crate::state::State;
use std::cmp::Ordering;

#[derive(Clone, Copy, Debug, PartialEq, Eq)]
pub struct Encoded {
    pub codeword: u8,
    pub state: State,
}

#[derive(Clone, Copy, Debug, PartialEq, Eq)]
pub struct Decoded {
    pub byte: u8,
    /// The byte that COMPRESS gave, before SYNC.
    pub compressed: u8,
    /// Whether that byte is requantized to another codeword than came, moved or held.
    pub disagrees: bool,
    pub state: State,
}

#[derive(Clone, Copy, Debug, PartialEq, Eq)]
pub struct DecodedLinear {
    pub sample: i16,
    pub state: State,
}

pub fn encode(state: &State, law: Law, width: u8, byte: u8) -> Encoded {
    encode_level(state, width, g711::expand(law, byte))
}

/// A sample by its level: EXPAND's of an octet, or a linear sample.
pub fn encode_level(state: &State, width: u8, level: i32) -> Encoded {
    let expected = estimate(state);
    let codeword = quantize(width, level - expected.se, expected.y);
    Encoded {
        codeword,
        state: advance(state, thinned(width, codeword, state.core)),
    }
}

pub fn decode(state: &State, law: Law, width: u8, codeword: u8) -> Decoded {
    let expected = estimate(state);
    let sp = g711::compress(law, reconstructed(&expected, width, codeword));
    let dx = g711::expand(law, sp) - expected.se;
    let requantized = quantize(width, dx, expected.y);
    let sd = sync(law, width, sp, requantized, codeword);
    Decoded {
        byte: sd,
        compressed: sp,
        disagrees: requantized != codeword,
        state: advance(state, thinned(width, codeword, state.core)),
    }
}

/// The reconstructed signal as it is, or held at an end of the scale.
pub fn decode_linear(state: &State, width: u8, codeword: u8) -> DecodedLinear {
    DecodedLinear {
        sample: linear::held(reconstructed(&estimate(state), width, codeword)),
        state: advance(state, thinned(width, codeword, state.core)),
    }
}

/// SR of the output path, from the whole codeword. It lies from -29,184 to 29,183, so that sixteen
/// bits hold it and nothing wraps: a difference is at most 12,800 and an estimate has 15 bits.
fn reconstructed(expected: &Estimate, width: u8, codeword: u8) -> i32 {
    reconstruct(width, codeword, expected.y) + expected.se
}

/// SYNC: a byte that would be requantized too low goes one level up, and the other way round.
fn sync(law: Law, width: u8, sp: u8, requantized: u8, received: u8) -> u8 {
    match as_signed(width, requantized).cmp(&as_signed(width, received)) {
        Ordering::Less => g711::one_up(law, sp),
        Ordering::Equal => sp,
        Ordering::Greater => g711::one_down(law, sp),
    }
}

/// Whether a codeword allows a difference from -32,768 to 32,767 at a state and width: exactly
/// where LOG, SUBTB and QUAN turn the difference into the codeword.
pub fn allows(state: &State, width: u8, codeword: u8, difference: i32) -> bool {
    quantize(width, difference, estimate(state).y) == codeword
}
