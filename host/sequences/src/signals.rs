//! The simple signals that the PCM inputs are put together from, as levels on the scale of
//! COMPRESS. Each part counts its samples from 0.

use crate::sine::{cosine, sine};

/// A level is the nearest whole number; halves go away from zero.
pub fn level(value: f64) -> i32 {
    value.round() as i32
}

/// A tone that begins at zero, upwards.
pub fn tone(frequency: u32, peak: i32, length: u32) -> Vec<i32> {
    chord(&[frequency], peak, length)
}

/// Several such tones at once, each of the same peak. Their sum is not limited here.
pub fn chord(frequencies: &[u32], peak: i32, length: u32) -> Vec<i32> {
    let sum = |n: u32| frequencies.iter().map(|f| sine(f * n)).sum::<f64>();
    (0..length)
        .map(|n| level(f64::from(peak) * sum(n)))
        .collect()
}

/// A tone that begins at its peak. At half the sampling rate the other kind would be silence.
pub fn tone_from_peak(frequency: u32, peak: i32, length: u32) -> Vec<i32> {
    (0..length)
        .map(|n| level(f64::from(peak) * cosine(frequency * n)))
        .collect()
}

pub fn constant(level: i32, length: u32) -> Vec<i32> {
    vec![level; length as usize]
}

/// Noise of even distribution from -peak to peak. The generator is the common one with the
/// multiplier 1,103,515,245, begun anew with the given number.
pub fn noise(start: u32, peak: i32, length: u32) -> Vec<i32> {
    let mut number = u64::from(start);
    (0..length)
        .map(|_| {
            number = (number * 1_103_515_245 + 12_345) % (1 << 31);
            (number >> 16) as i32 % (2 * peak + 1) - peak
        })
        .collect()
}
