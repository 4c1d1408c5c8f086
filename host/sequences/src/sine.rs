//! Sine and cosine of the steps that a tone takes at 8,000 samples a second. Only sums, products
//! and quotients are used: these are exact to the last bit on every machine, a library's sine is
//! not.

use std::f64::consts::TAU;

/// Steps in a whole turn: a tone of f Hz moves on by f of them with each sample.
pub const TURN: u32 = 8_000;

pub fn sine(steps: u32) -> f64 {
    let half = TURN / 2;
    let within = steps % half;
    let acute = within.min(half - within);
    let size = series(TAU * f64::from(acute) / f64::from(TURN));
    if steps % TURN < half {
        size
    } else {
        -size
    }
}

pub fn cosine(steps: u32) -> f64 {
    sine(steps + TURN / 4)
}

/// The power series, whose terms beyond the thirteenth do not count below a quarter turn.
fn series(angle: f64) -> f64 {
    let mut term = angle;
    let mut sum = angle;
    for place in 1..=12_u32 {
        let even = f64::from(2 * place);
        term *= -angle * angle / (even * (even + 1.0));
        sum += term;
    }
    sum
}
