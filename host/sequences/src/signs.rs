//! The signs of the I-inputs: eight subsequences of 2,048 (the description, section 6.3). What it
//! had there is lost; these are our own.

const SUBSEQUENCE: u32 = 2_048;

pub fn signs() -> Vec<u8> {
    [
        pattern(|_| 0),
        pattern(|_| 1),
        pattern(|n| n % 2),
        pattern(|n| n / 2 % 2),
        pattern(|n| n / 16 % 2),
        pattern(|n| u32::from(n % 3 == 0)),
        register(7, 6),
        register(11, 9),
    ]
    .concat()
}

fn pattern(sign: impl Fn(u32) -> u32) -> Vec<u8> {
    (0..SUBSEQUENCE).map(|n| sign(n) as u8).collect()
}

/// A shift register of the given length, kept as a number that begins with 1. The bit that enters
/// at its low end is the sum of its highest bit, bit `length`, and of bit `other`; it is also the
/// sign.
fn register(length: u32, other: u32) -> Vec<u8> {
    let mut kept: u32 = 1;
    (0..SUBSEQUENCE)
        .map(|_| {
            let bit = ((kept >> (length - 1)) + (kept >> (other - 1))) % 2;
            kept = (2 * kept + bit) % (1 << length);
            bit as u8
        })
        .collect()
}
