//! States of the groups that go to the edges of the sub-blocks: one quantity is set, and the rest is at reset or drawn from the
//! whole table of ranges with its corners favoured.

use random::states::any_state;
use random::Random;
use second::state::State;

/// AP at its greatest lets YU alone be the scale factor: Y is then `y`.
pub fn at_scale(core: u8, y: u16) -> State {
    State {
        yu: y,
        ap: 512,
        ..State::reset(core)
    }
}

/// A state as speech leaves it: coefficients within their limits, signals of one size.
pub fn likely_state(random: &mut Random, core: u8) -> State {
    let exponent = random.below(14);
    let y = random.within(544, 5_120);
    let word = |random: &mut Random| {
        (random.below(2) << 10 | exponent << 6 | random.within(32, 63)) as u16
    };
    State {
        yu: y as u16,
        yl: (64 * y).clamp(34_816, 327_680) as u32,
        a1: (random.below(24_000) as u16).wrapping_sub(12_000),
        a2: (random.below(24_000) as u16).wrapping_sub(12_000),
        b: std::array::from_fn(|_| (random.below(16_000) as u16).wrapping_sub(8_000)),
        dq: std::array::from_fn(|_| word(random)),
        sr1: word(random),
        sr2: word(random),
        ..any_state(random, core)
    }
}

/// Codewords of the width, of which the first is given.
pub fn drawn_codewords(random: &mut Random, width: u8, first: u8) -> [u8; 8] {
    let mut codewords = [0; 8].map(|_: u8| random.below(1 << width) as u8);
    codewords[0] = first;
    codewords
}
