//! The four PCM inputs as levels: for normal operation (the description, section 6.1), for overload
//! (6.2), for homing (6.4.1), and the jumps, which are no sequence of the description. It gives
//! frequencies and lengths; levels, phases, all of the homing sequence and the jumps are ours.

use crate::modem;
use crate::signals::{chord, constant, noise, tone, tone_from_peak};

/// Table 8. The peaks are those of tones at -3, -10, -20, -30 and -40 dBm0.
pub fn normal() -> Vec<i32> {
    [
        tone(3_504, 4_000, 1_024),
        tone(2_054, 1_790, 1_024),
        tone(1_504, 566, 1_024),
        tone(504, 179, 1_024),
        tone(254, 57, 1_024),
        tone(1_254, 1_790, 1_024),
        tone(2_254, 4_000, 1_024),
        tone(3_254, 566, 1_024),
        tone_from_peak(4_000, 1_790, 512),
        constant(20, 512),
        constant(0, 512),
        constant(-20, 512),
        modem::both_parts(3_072),
    ]
    .concat()
}

/// Each tone at +3 dBm0: alone it just reaches the end of the scale, with others it goes beyond.
const LOUD: i32 = 8_000;

pub fn overload() -> Vec<i32> {
    let (low, middle, high) = (404, 1_004, 3_204);
    [
        chord(&[low], LOUD, 256),
        chord(&[middle], LOUD, 256),
        chord(&[high], LOUD, 256),
        chord(&[low, middle], LOUD, 192),
        chord(&[low, high], LOUD, 192),
        chord(&[middle, high], LOUD, 192),
        chord(&[low, middle, high], LOUD, 256),
        chord(&[high], LOUD, 128),
        chord(&[low], LOUD, 32),
        chord(&[middle], LOUD, 32),
        chord(&[high], LOUD, 64),
        chord(&[low], LOUD, 64),
        chord(&[middle], LOUD, 128),
    ]
    .concat()
}

/// Noise, tones that come and go, and silence. It ends within a tone, so that what follows it meets
/// a predictor far from reset and a tone detector that is on.
pub fn homing() -> Vec<i32> {
    [
        noise(1, 4_000, 600),
        tone(1_000, 400, 400),
        constant(0, 400),
        noise(2, 30, 400),
        tone(2_600, 6_000, 400),
        noise(3, 1_000, 600),
        tone(1_204, 900, 696),
    ]
    .concat()
}

/// Tones, each of which ends in a jump: the tone detector is on, and TRANS has to decide. Found by
/// search, so that it decides for a transition at every scale where one can be, at every core.
pub fn jump() -> Vec<i32> {
    [
        [tone(2_954, 8_000, 256), noise(12, 8_000, 16)],
        [tone(2_954, 8_000, 160), tone(2_204, 5_000, 16)],
        [tone(2_404, 8_000, 64), tone_from_peak(1_504, 8_000, 16)],
        [tone(3_004, 5_000, 256), tone(1_254, 8_000, 16)],
        [tone(3_004, 1_000, 256), tone(2_954, 8_000, 16)],
        [tone(2_954, 120, 256), tone(2_404, 250, 32)],
        [tone(3_004, 60, 192), tone_from_peak(2_604, 8_000, 64)],
        [tone(2_904, 500, 256), tone_from_peak(3_204, 4_000, 32)],
        [tone(2_954, 60, 320), tone(3_154, 2_000, 96)],
        [tone(2_704, 5_000, 160), tone(1_704, 6_000, 16)],
        [tone(1_254, 30, 320), constant(-4_000, 8)],
        [tone(804, 3_000, 256), constant(8_000, 8)],
        [tone(1_704, 6_000, 240), tone(504, 8_000, 80)],
        [tone(3_104, 8_000, 48), constant(2_000, 8)],
        [tone(1_504, 8_000, 192), constant(6_000, 64)],
        [tone(804, 8_000, 48), tone(3_104, 6_000, 16)],
        [tone(1_254, 8_000, 96), tone_from_peak(2_604, 8_000, 16)],
        [tone(1_504, 5_000, 96), constant(6_000, 8)],
        [tone(1_704, 2_000, 48), constant(-8_000, 48)],
    ]
    .concat()
    .concat()
}
