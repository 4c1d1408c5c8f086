//! Linear samples: 16-bit numbers on the scale of EXPAND's levels, for an end that has no G.711 part.
//! G.711's own levels end at 8,031 and 8,064; a linear sample may have all that fourteen bits hold.

pub const LEAST: i16 = -8_192;
pub const GREATEST: i16 = 8_191;

/// Whether a sample may be encoded.
pub fn is_sample(sample: i16) -> bool {
    (LEAST..=GREATEST).contains(&sample)
}

/// The sample that a reconstructed signal comes out as: the signal itself, or the end that it is past.
pub fn held(signal: i32) -> i16 {
    signal.clamp(LEAST.into(), GREATEST.into()) as i16
}
