//! The Recommendation's tables by width or core: decision thresholds (Tables 8 to 11), output
//! levels (Tables 12 to 15), FUNCTW and FUNCTF (sections 6.2.5 and 6.2.6). Twelve-bit words that
//! stand for negative numbers are written as such: 4089 is printed where -7 stands here.

/// Lower ends of the magnitudes 1, 2, .. on the scale of the normalized logarithm.
/// Whatever lies below the first has magnitude 0.
pub fn thresholds(width: u8) -> &'static [i32] {
    match width {
        2 => &[261],
        3 => &[123, 261, 356],
        4 => &[-7, 123, 202, 261, 310, 356, 405],
        5 => &[
            -135, -7, 69, 123, 166, 202, 233, 261, 286, 310, 333, 356, 380, 405, 439,
        ],
        _ => panic!("no quantizer of width {width}"),
    }
}

/// The normalized logarithm that stands for each magnitude, from 0 up.
pub fn output_levels(width: u8) -> &'static [i32] {
    match width {
        2 => &[116, 365],
        3 => &[-11, 199, 307, 395],
        4 => &[-135, 68, 165, 232, 285, 332, 377, 428],
        5 => &[
            -264, -61, 34, 97, 145, 184, 217, 246, 273, 298, 321, 344, 367, 391, 419, 456,
        ],
        _ => panic!("no inverse quantizer of width {width}"),
    }
}

/// FUNCTW: the scale factor multiplier of each magnitude of the core codeword, from 0 up.
pub fn scale_multipliers(core: u8) -> &'static [i32] {
    match core {
        2 => &[-22, 439],
        3 => &[-4, 30, 137, 582],
        4 => &[-12, 4, 27, 50, 98, 184, 340, 1_108],
        _ => panic!("no core of {core} bits"),
    }
}

/// FUNCTF: what each magnitude of the core codeword adds to the averages of speed control.
pub fn speed_values(core: u8) -> &'static [i32] {
    match core {
        2 => &[0, 7],
        3 => &[0, 1, 2, 7],
        4 => &[0, 0, 0, 1, 1, 1, 3, 7],
        _ => panic!("no core of {core} bits"),
    }
}
