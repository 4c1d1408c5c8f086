//! The predictor's small floating point numbers: a sign, an exponent that counts the bits of the
//! magnitude, and a mantissa of six bits with its top bit set. FLOATA, FLOATB and FMULT of
//! section 6.2.7 all work on them; FMULT also turns a coefficient into one.

#[derive(Clone, Copy, Debug, PartialEq, Eq)]
pub struct Float {
    pub negative: bool,
    pub exponent: i32,
    pub mantissa: i32,
}

/// The magnitude of a signed 16-bit number in 15 bits. The masks of LOG, FLOATB and COMPRESS
/// leave nothing of -32,768, whose magnitude has a sixteenth bit.
pub fn magnitude(value: i32) -> i32 {
    value.abs() % 32_768
}

/// How many bits a magnitude needs: 0 for 0, 1 for 1, 2 for 2 and 3, and so on.
pub fn bit_count(magnitude: i32) -> i32 {
    (i32::BITS - magnitude.leading_zeros()) as i32
}

impl Float {
    pub fn new(negative: bool, magnitude: i32) -> Float {
        let exponent = bit_count(magnitude);
        let mantissa = match magnitude {
            0 => 32,
            _ => (magnitude << 6) >> exponent,
        };
        Float {
            negative,
            exponent,
            mantissa,
        }
    }

    /// FLOATA for a quantized difference, FLOATB for a reconstructed signal: both words say the
    /// same of a signed number, the one in sign and magnitude, the other in two's complement.
    pub fn of_signal(value: i32) -> Float {
        Float::new(value < 0, magnitude(value))
    }

    /// The coefficient as FMULT sees it: fourteen bits of it, rounded towards minus infinity,
    /// with a magnitude of thirteen bits. Of the lowest four words that magnitude is 0.
    pub fn of_coefficient(coefficient: i16) -> Float {
        let quarter = i32::from(coefficient) >> 2;
        Float::new(quarter < 0, quarter.abs() % 8_192)
    }

    pub fn from_word(word: u16) -> Float {
        Float {
            negative: word & 1_024 != 0,
            exponent: i32::from(word >> 6 & 15),
            mantissa: i32::from(word & 63),
        }
    }

    pub fn to_word(self) -> u16 {
        let sign = if self.negative { 1_024 } else { 0 };
        (sign + 64 * self.exponent + self.mantissa) as u16
    }
}

/// FMULT, as a signed number whose magnitude has fifteen bits; the bits above are lost.
pub fn multiply(coefficient: i16, signal: Float) -> i32 {
    let factor = Float::of_coefficient(coefficient);
    let mantissa = i64::from((signal.mantissa * factor.mantissa + 48) >> 4);
    let size = ((mantissa << 7) << (signal.exponent + factor.exponent)) >> 26;
    let product = (size % 32_768) as i32;
    if signal.negative == factor.negative {
        product
    } else {
        -product
    }
}
