//! What a decoder is given that no encoder need have sent: the I-inputs and the held codeword.

use crate::magnitudes::magnitudes;
use crate::signs::signs;

/// The codeword of a sign and a magnitude: the negative half counts down from the top.
fn codeword(width: u8, sign: u8, magnitude: u8) -> u8 {
    match sign {
        0 => magnitude,
        _ => (1 << width) - 1 - magnitude,
    }
}

pub fn i_input(width: u8) -> Vec<u8> {
    signs()
        .into_iter()
        .zip(magnitudes(width))
        .map(|(sign, magnitude)| codeword(width, sign, magnitude))
        .collect()
}

const HELD_FOR: usize = 2_000;

/// The greatest positive codeword, held until the coefficients B have passed 32,767.
pub fn held(width: u8) -> Vec<u8> {
    vec![(1 << (width - 1)) - 1; HELD_FOR]
}
