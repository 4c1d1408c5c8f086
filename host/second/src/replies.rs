//! The numbered replies of the public calls, and which pairs of widths there are
//! (Recommendation, section 3: nine pairs of all bits and core bits).

pub const DONE: u8 = 0;
pub const NO_SUCH_PAIR: u8 = 1;
pub const BAD_SAMPLE_COUNT: u8 = 2;
pub const OUT_TOO_SHORT: u8 = 3;
pub const STATE_OUT_OF_RANGE: u8 = 4;
/// Also where the encoder is asked for an edition that no frame has.
pub const NOT_A_FRAME: u8 = 5;
pub const WRONG_LENGTH: u8 = 6;
pub const OTHER_CORE: u8 = 7;
pub const BAD_TARGET_WIDTH: u8 = 8;
pub const NO_SUCH_LAW: u8 = 9;
pub const OTHER_NUMBER: u8 = 10;
/// Of a linear one: an octet of G.711 is never out of range.
pub const SAMPLE_OUT_OF_RANGE: u8 = 11;

pub const NARROWEST_CORE: u8 = 2;
pub const WIDEST_CORE: u8 = 4;
pub const WIDEST: u8 = 5;

pub fn is_core(core: u8) -> bool {
    (NARROWEST_CORE..=WIDEST_CORE).contains(&core)
}

pub fn is_pair(width: u8, core: u8) -> bool {
    is_core(core) && (core..=WIDEST).contains(&width)
}

/// A step in a list of tests: the number is the answer where the test fails.
pub fn demand(holds: bool, otherwise: u8) -> Result<(), u8> {
    if holds {
        Ok(())
    } else {
        Err(otherwise)
    }
}
