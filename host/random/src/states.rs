//! States drawn from the whole table of ranges with its corners favoured, and the nine pairs.

use crate::Random;
use second::state::State;

/// Width and core of the nine pairs.
pub const PAIRS: [(u8, u8); 9] = [
    (2, 2),
    (3, 2),
    (4, 2),
    (5, 2),
    (3, 3),
    (4, 3),
    (5, 3),
    (4, 4),
    (5, 4),
];

/// Coefficient words where reading them or updating them changes its course.
const TURNING_WORDS: [u16; 30] = [
    0, 1, 2, 3, 4, 5, 127, 128, 255, 256, 257, 8_191, 8_192, 12_288, 15_360, 32_639, 32_640,
    32_766, 32_767, 32_768, 32_769, 32_771, 32_772, 53_248, 53_760, 57_344, 57_345, 65_408, 65_532,
    65_535,
];

pub fn coefficient(random: &mut Random) -> u16 {
    match random.below(4) {
        0 => random.pick(&TURNING_WORDS),
        1 => (random.below(1_024) as u16).wrapping_sub(512),
        _ => random.draw() as u16,
    }
}

pub fn bit(random: &mut Random) -> u16 {
    random.below(2) as u16
}

/// Any state that the calls take. Its number is looked ahead at and not drawn, so that it moves
/// nothing that is drawn behind it.
pub fn any_state(random: &mut Random, core: u8) -> State {
    State {
        yu: random.within(544, 5_120) as u16,
        yl: random.within(34_816, 327_680) as u32,
        dms: random.within(0, 3_584) as u16,
        dml: random.within(0, 14_336) as u16,
        ap: random.within(0, 512) as u16,
        a1: coefficient(random),
        a2: coefficient(random),
        b: std::array::from_fn(|_| coefficient(random)),
        dq: std::array::from_fn(|_| random.float_word(14)),
        sr1: random.float_word(15),
        sr2: random.float_word(15),
        pk1: bit(random),
        pk2: bit(random),
        td: bit(random),
        core,
        number: random.ahead().within(0, 255) as u8,
    }
}
