//! The Recommendation's tables as they are printed, row by row, held against the lists of
//! thresholds; against the infinite-precision Tables 1 to 4 and section 4.6; and their nesting.

use second::quantizer::{as_signed, magnitude_index, quan, thinned};
use second::tables::{output_levels, scale_multipliers, speed_values, thresholds};

mod support;

use support::printed;

fn signed_12_bits(word: i32) -> i32 {
    if word < 2_048 {
        word
    } else {
        word - 4_096
    }
}

#[test]
fn thresholds_are_tables_8_to_11() {
    for width in 2..=5 {
        for ds in 0..2 {
            for dln in 0..4_096 {
                let found = quan(width, ds == 1, signed_12_bits(dln));
                assert_eq!(found, printed::quan(width, ds, dln));
            }
        }
    }
}

/// ID and IM put codewords in the order of the differences, as their signed reading does.
#[test]
fn signed_codewords_are_id_and_im_of_sync() {
    for width in 2..=5_u8 {
        let half = 1 << (width - 1);
        for dln in 0..4_096 {
            for ds in 0..2 {
                let codeword = quan(width, ds == 1, signed_12_bits(dln));
                let id = i32::from(printed::id(width, ds, dln));
                assert_eq!(as_signed(width, codeword) + half, id);
            }
        }
        for codeword in 0..1_u8 << width {
            let is = codeword >> (width - 1);
            let im = match is {
                0 => i32::from(codeword) + half,
                _ => i32::from(codeword) & (half - 1),
            };
            assert_eq!(as_signed(width, codeword) + half, im);
        }
    }
}

#[test]
fn a_narrower_codeword_is_the_five_bit_one_shifted() {
    for width in 2..=5 {
        for ds in [false, true] {
            for dln in 0..4_096 {
                let widest = quan(5, ds, signed_12_bits(dln));
                let narrower = quan(width, ds, signed_12_bits(dln));
                assert_eq!(narrower, widest >> (5 - width));
                assert_eq!(narrower, thinned(5, widest, width));
            }
        }
    }
}

/// Tables 12 to 15 from magnitude 0 up, in twelve-bit words as printed.
#[test]
fn output_levels_are_tables_12_to_15() {
    let table_12 = [116, 365];
    let table_13 = [4085, 199, 307, 395];
    let table_14 = [3961, 68, 165, 232, 285, 332, 377, 428];
    let table_15 = [
        3832, 4035, 34, 97, 145, 184, 217, 246, 273, 298, 321, 344, 367, 391, 419, 456,
    ];
    let tables: [&[i32]; 4] = [&table_12, &table_13, &table_14, &table_15];
    for (width, words) in (2..=5).zip(tables) {
        for codeword in 0..1_u8 << width {
            let top = codeword >> (width - 1);
            let row = if top == 0 {
                codeword
            } else {
                (1 << width) - 1 - codeword
            };
            let level = output_levels(width)[magnitude_index(width, codeword)];
            assert_eq!(level, signed_12_bits(words[usize::from(row)]));
        }
    }
}

#[test]
fn multipliers_and_speed_values_are_functw_and_functf() {
    let wi: [&[i32]; 3] = [
        &[4074, 439],
        &[4092, 30, 137, 582],
        &[4084, 4, 27, 50, 98, 184, 340, 1108],
    ];
    let fi: [&[i32]; 3] = [&[0, 7], &[0, 1, 2, 7], &[0, 0, 0, 1, 1, 1, 3, 7]];
    for core in 2..=4_u8 {
        let place = usize::from(core - 2);
        let words: Vec<i32> = wi[place].iter().map(|&word| signed_12_bits(word)).collect();
        assert_eq!(scale_multipliers(core), words);
        assert_eq!(speed_values(core), fi[place]);
    }
}

/// Tables 1 to 4 in hundredths: the thresholds, then the output levels.
fn infinite_precision(width: u8) -> (&'static [i32], &'static [i32]) {
    match width {
        2 => (&[204], &[91, 285]),
        3 => (&[96, 204, 278], &[-9, 155, 240, 309]),
        4 => (
            &[-5, 96, 158, 204, 242, 278, 316],
            &[-106, 53, 129, 181, 223, 259, 295, 334],
        ),
        _ => (
            &[
                -105, -5, 54, 96, 130, 158, 182, 204, 223, 242, 260, 278, 297, 316, 343,
            ],
            &[
                -206, -48, 27, 76, 113, 144, 170, 192, 213, 233, 251, 269, 287, 305, 327, 356,
            ],
        ),
    }
}

/// Whether `units` of 1/scale lie within so many ten-thousandths of a value in hundredths.
fn is_near(units: i32, scale: i32, hundredths: i32, ten_thousandths: i32) -> bool {
    (10_000 * units - 100 * hundredths * scale).abs() <= ten_thousandths * scale
}

/// The printed values are rounded to 0.01 and the thresholds lie on steps of 1/128, so no entry
/// should be further off than half of the one and half of the other, 0.0089; 0.01 covers that. A
/// slip of one step may pass here and is left to the rows above; a damaged digit may not.
const LOG_TOLERANCE: i32 = 100;

#[test]
fn thresholds_and_levels_are_near_their_logarithms() {
    for width in 2..=5 {
        let (printed_thresholds, printed_levels) = infinite_precision(width);
        let found = thresholds(width).iter().zip(printed_thresholds);
        for (&units, &value) in found.chain(output_levels(width).iter().zip(printed_levels)) {
            assert!(
                is_near(units, 128, value, LOG_TOLERANCE),
                "{units} for {value}"
            );
        }
        assert_eq!(thresholds(width).len(), printed_thresholds.len());
        assert_eq!(output_levels(width).len(), printed_levels.len());
    }
}

/// W has four bits after the point, a step of 0.0625, and section 4.6 prints the multiplier that
/// is in use, rounded to two digits: so nothing but that rounding may lie between them.
const W_TOLERANCE: i32 = 50;

#[test]
fn multipliers_are_those_of_section_4_6() {
    let printed: [&[i32]; 3] = [
        &[-138, 2744],
        &[-25, 188, 856, 3638],
        &[-75, 25, 169, 313, 613, 1150, 2125, 6925],
    ];
    for (core, values) in (2..=4).zip(printed) {
        for (&units, &value) in scale_multipliers(core).iter().zip(values) {
            assert!(
                is_near(units, 16, value, W_TOLERANCE),
                "{units} for {value}"
            );
        }
    }
}
