//! What is fed to both codecs: tones, noise and random bytes for the encoders, random and held
//! codes for the decoders, and states drawn from the table of ranges.

use random::states::any_state;
use random::Random;
use second::g711::{compress, Law};
use second::state::State;
use std::f64::consts::TAU;

/// A named input for the encoders, as levels of fourteen bits.
pub struct Signal {
    pub name: String,
    pub levels: Vec<i32>,
}

impl Signal {
    pub fn bytes(&self, law: Law) -> Vec<u8> {
        let to_byte = |&level: &i32| compress(law, level);
        self.levels.iter().map(to_byte).collect()
    }
}

const SAMPLE_RATE: f64 = 8_000.0;
const LONG: usize = 40_000;

fn held(level: f64) -> i32 {
    level.clamp(-8_192.0, 8_191.0) as i32
}

/// Steady tones, some beyond the overload point, and tones keyed on and off, which set off the
/// transition detector.
pub fn tones() -> Vec<Signal> {
    let mut signals = Vec::new();
    for frequency in [50, 254, 404, 504, 1004, 1504, 2054, 2804, 3254, 3504, 3990] {
        for peak in [3, 60, 900, 7_500, 16_000] {
            for keying in [0, 400] {
                signals.push(tone(frequency, peak, keying));
            }
        }
    }
    signals
}

fn tone(frequency: u32, peak: i32, keying: usize) -> Signal {
    let level = |i: usize| {
        let silent = keying > 0 && i / keying % 2 == 1;
        let phase = TAU * f64::from(frequency) * i as f64 / SAMPLE_RATE;
        if silent {
            0
        } else {
            held(f64::from(peak) * phase.sin())
        }
    };
    Signal {
        name: format!("tone of {frequency} Hz, peak {peak}, keyed every {keying} samples"),
        levels: (0..LONG).map(level).collect(),
    }
}

/// Noise at several strengths, and in bursts that change its strength a hundred times a second.
pub fn noises() -> Vec<Signal> {
    let mut random = Random::new(11);
    let mut signals = Vec::new();
    for peak in [1, 4, 30, 250, 2_000, 8_000, 30_000] {
        signals.push(Signal {
            name: format!("noise of peak {peak}"),
            levels: (0..4 * LONG)
                .map(|_| held(f64::from(peak) * random.fraction()))
                .collect(),
        });
    }
    let mut strength = 0.0;
    let mut burst = |i: usize| {
        if i.is_multiple_of(80) {
            strength = 2_f64.powf(7.0 + 7.5 * random.fraction());
        }
        held(strength * random.fraction())
    };
    signals.push(Signal {
        name: "noise in bursts".to_string(),
        levels: (0..10 * LONG).map(&mut burst).collect(),
    });
    signals
}

/// Bytes of any value, drawn anew or held for a while.
pub fn random_bytes() -> Vec<u8> {
    let mut random = Random::new(12);
    runs(&mut random, 20 * LONG, 256, 40)
}

/// A named input for the decoders.
pub struct Codes {
    pub name: String,
    pub codes: Vec<u8>,
}

/// Codes that no encoder would send: each one held for thousands of samples, pairs and triples
/// in turn, and random ones in runs of many lengths.
pub fn code_sequences() -> Vec<Codes> {
    let mut random = Random::new(13);
    let mut sequences = Vec::new();
    for first in 0..4_u8 {
        for second in 0..4_u8 {
            for period in [1, 2, 3, 7, 50, 1_400, 5_000] {
                sequences.push(Codes {
                    name: format!("codes {first} and {second} in turn, {period} of each"),
                    codes: (0..20_000)
                        .map(|i| if i / period % 2 == 0 { first } else { second })
                        .collect(),
                });
            }
        }
    }
    for longest in [1, 3, 20, 300, 4_000] {
        sequences.push(Codes {
            name: format!("random codes in runs of up to {longest}"),
            codes: runs(&mut random, 10 * LONG, 4, longest),
        });
    }
    sequences
}

fn runs(random: &mut Random, count: usize, values: u64, longest: u64) -> Vec<u8> {
    let mut drawn = Vec::with_capacity(count);
    while drawn.len() < count {
        let value = random.below(values) as u8;
        let length = 1 + random.below(longest) as usize;
        drawn.extend(std::iter::repeat_n(value, length));
    }
    drawn.truncate(count);
    drawn
}

/// A state of the table of ranges, with A1 and A2 inside the limits that LIMC and LIMD keep:
/// spandsp folds those limits into its update and so says nothing of coefficients beyond them.
/// Its number is 0, as spandsp's states have it.
pub fn limited_state(random: &mut Random, core: u8) -> State {
    let a2 = random.within(0, 24_576) as i32 - 12_288;
    let bound = 15_360 - a2;
    let a1 = random.within(0, 2 * bound as u64) as i32 - bound;
    State {
        a1: a1 as u16,
        a2: a2 as u16,
        number: 0,
        ..any_state(random, core)
    }
}
