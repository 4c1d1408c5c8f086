//! From a difference to a codeword of any width and back: QUAN (section 6.2.2), the masking of
//! enhancement bits (6.2.3) and RECONST (6.2.4). A codeword is read as a two's complement number:
//! so read, codewords rise with the differences they stand for.

use crate::logarithm::{normalized_log, scaled_antilog};
use crate::tables;

/// The codeword as a signed number: with five bits 10000 is -16, 11111 is -1 and 01111 is 15.
pub fn as_signed(width: u8, codeword: u8) -> i32 {
    let value = i32::from(codeword);
    if value >> (width - 1) == 0 {
        value
    } else {
        value - (1 << width)
    }
}

/// The magnitude bits of a codeword, which its negative half carries inverted.
pub fn magnitude_index(width: u8, codeword: u8) -> usize {
    let value = as_signed(width, codeword);
    value.max(-1 - value) as usize
}

/// QUAN on the sign of a difference and its normalized logarithm.
pub fn quan(width: u8, negative: bool, normalized: i32) -> u8 {
    let index =
        tables::thresholds(width).partition_point(|&lower_end| lower_end <= normalized) as u8;
    if negative {
        (1 << width) - 1 - index
    } else {
        index
    }
}

/// LOG, SUBTB and QUAN: the codeword of a difference at scale factor Y.
pub fn quantize(width: u8, difference: i32, y: i32) -> u8 {
    quan(width, difference < 0, normalized_log(difference, y))
}

/// RECONST, ADDA and ANTILOG: the difference that a codeword stands for at scale factor Y.
/// The sign of a magnitude 0 is lost here; only the output path can meet one.
pub fn reconstruct(width: u8, codeword: u8, y: i32) -> i32 {
    let level = tables::output_levels(width)[magnitude_index(width, codeword)];
    let size = scaled_antilog(level, y);
    if as_signed(width, codeword) < 0 {
        -size
    } else {
        size
    }
}

/// The codeword with all but its first `kept` bits dropped.
pub fn thinned(width: u8, codeword: u8, kept: u8) -> u8 {
    codeword >> (width - kept)
}
