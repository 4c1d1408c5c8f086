//! Between linear and logarithm to the base 2, seven bits after the point, log2(1 + x) taken as x:
//! LOG and SUBTB (section 6.2.2), ADDA and ANTILOG (6.2.4).

use crate::float::{bit_count, magnitude};

/// LOG: DL of a difference. Magnitudes 0 and 1 both have the logarithm 0.
pub fn log(difference: i32) -> i32 {
    match magnitude(difference) {
        0 => 0,
        size => {
            let exponent = bit_count(size) - 1;
            128 * (exponent - 1) + ((size << 7) >> exponent)
        }
    }
}

/// LOG and SUBTB. The scale factor carries two more bits after the point than DL does.
/// With Y from 544 to 5,120 the result is from -1,280 to 1,783 and needs no wrapping.
pub fn normalized_log(difference: i32, y: i32) -> i32 {
    log(difference) - (y >> 2)
}

/// ADDA and the magnitude of ANTILOG. A negative logarithm has the magnitude 0.
pub fn scaled_antilog(normalized: i32, y: i32) -> i32 {
    let dql = normalized + (y >> 2);
    if dql < 0 {
        0
    } else {
        ((128 + dql % 128) << (dql / 128)) >> 7
    }
}
