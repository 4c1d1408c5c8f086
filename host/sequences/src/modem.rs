//! Voice-band data of 4,800 bit/s, by eight-phase differential keying of a carrier of 1,800 Hz with
//! 1,600 symbols a second as in V.27, and the secondary channel of 75 bit/s at 390 and 450 Hz.

use crate::signals::level;
use crate::sine::{cosine, sine, TURN};

/// At 8,000 samples a second a symbol takes five.
const SYMBOL: u32 = 5;
const CARRIER: u32 = 1_800;
const EIGHTH_TURN: u32 = TURN / 8;
const PEAK: f64 = 1_270.0;
const SECONDARY_PEAK: f64 = 400.0;

/// Both parts take turns of this many samples at being on and off.
const CYCLE: u32 = 768;
const CARRIER_ON: u32 = 640;
const SECONDARY_ON: u32 = 500;

/// The part with a switched carrier, and after it the part with a carrier that stays on and a
/// secondary channel that is switched. The symbols of the second go on where those of the first
/// end.
pub fn both_parts(length: u32) -> Vec<i32> {
    let phases = phases((2 * length / SYMBOL + 2) as usize);
    let switched = (0..length).map(|n| match n % CYCLE {
        0..CARRIER_ON => level(PEAK * keyed(&phases, n)),
        _ => 0,
    });
    let second = secondary(length);
    let steady = (0..length).map(|m| {
        let both = PEAK * keyed(&phases, length + m) + second[m as usize];
        level(both)
    });
    switched.chain(steady).collect()
}

/// The carrier at a sample. A symbol's phase has its full share at the symbol's first sample and
/// gives way to the next symbol's phase with the shape of a raised cosine.
fn keyed(phases: &[u32], n: u32) -> f64 {
    let symbol = (n / SYMBOL) as usize;
    let share = (1.0 + cosine(TURN / (2 * SYMBOL) * (n % SYMBOL))) / 2.0;
    let carrier = |phase: u32| cosine(CARRIER * n + EIGHTH_TURN * phase);
    share * carrier(phases[symbol]) + (1.0 - share) * carrier(phases[symbol + 1])
}

/// V.27's phase changes, in eighths of a turn, by the value of three bits, the first sent highest.
const CHANGES: [u32; 8] = [1, 0, 2, 3, 6, 7, 5, 4];

/// The phase of each symbol in eighths of a turn. The first change is made from 0.
fn phases(count: usize) -> Vec<u32> {
    let mut phase = 0;
    scrambled_ones(3 * count)
        .chunks(3)
        .map(|bits| {
            let value = 4 * bits[0] + 2 * bits[1] + bits[2];
            phase = (phase + CHANGES[value]) % 8;
            phase
        })
        .collect()
}

/// Ones through V.27's scrambler, 1 + x^-6 + x^-7, which holds zeros at the start.
fn scrambled_ones(count: usize) -> Vec<usize> {
    let mut sent: Vec<usize> = Vec::with_capacity(count);
    let before = |sent: &[usize], back: usize| match sent.len().checked_sub(back) {
        Some(place) => sent[place],
        None => 0,
    };
    for _ in 0..count {
        let bit = (1 + before(&sent, 6) + before(&sent, 7)) % 2;
        sent.push(bit);
    }
    sent
}

/// Ones and zeros in turn, 75 a second, the phase running on from bit to bit.
fn secondary(length: u32) -> Vec<f64> {
    let mut steps = 0;
    (0..length)
        .map(|m| {
            let frequency = [390, 450][(75 * m / TURN % 2) as usize];
            let on = m % CYCLE < SECONDARY_ON;
            let value = if on {
                SECONDARY_PEAK * sine(steps)
            } else {
                0.0
            };
            steps = (steps + frequency) % TURN;
            value
        })
        .collect()
}
