//! The inputs are what they are said to be: the description's tables as printed, the signs, the
//! sine, the files.

use sequences::codewords::{held, i_input};
use sequences::files::{Inputs, Kind};
use sequences::magnitudes::{self, in_turn, magnitudes, Run};
use sequences::signs::signs;
use sequences::sine::{cosine, sine, TURN};
use std::collections::HashSet;
use std::f64::consts::TAU;

/// The files must not drift from the description: `make` would write them as they stand.
#[test]
fn the_files_hold_what_is_made() {
    let read = Inputs::read().expect("the files are written by the program make");
    assert!(read == Inputs::made(), "run the program make");
}

#[test]
fn each_input_has_its_length() {
    for input in Inputs::made().0 {
        assert_eq!(input.octets.len(), input.kind.samples());
    }
    for width in 2..=5 {
        assert_eq!(i_input(width).len(), Kind::Normal.samples());
    }
    assert_eq!(signs().len(), 8 * 2_048);
}

fn steady(magnitude: u8, length: u32) -> Run {
    magnitudes::held(magnitude, length)
}

/// The tables below are expanded by the same function as Table 9, so it is tested by itself.
#[test]
fn a_run_has_sixteen_of_each_in_turn() {
    let expected = [[3; 16], [5; 16], [3; 16]].concat();
    assert_eq!(together(&[in_turn(3, 5, 48)]), expected);
    assert_eq!(together(&[in_turn(3, 5, 20)]), expected[..20]);
    assert_eq!(together(&[steady(7, 5)]), [7; 5]);
}

fn together(runs: &[Run]) -> Vec<u8> {
    runs.iter().flat_map(Run::magnitudes).collect()
}

#[test]
fn table_10_as_printed() {
    let printed = [
        steady(0, 1_024),
        in_turn(0, 2, 512),
        steady(2, 512),
        in_turn(2, 4, 512),
        steady(4, 512),
        in_turn(4, 6, 256),
        steady(6, 1_024),
        in_turn(6, 8, 512),
        steady(8, 512),
        in_turn(8, 10, 512),
        steady(10, 512),
        in_turn(10, 12, 256),
        steady(12, 1_024),
        in_turn(12, 14, 256),
        steady(14, 1_024),
        steady(12, 1_024),
        steady(10, 1_024),
        in_turn(10, 8, 512),
        in_turn(8, 6, 512),
        steady(6, 512),
        steady(4, 1_024),
        in_turn(4, 2, 512),
        in_turn(2, 0, 512),
        steady(0, 1_024),
        in_turn(10, 14, 256),
        in_turn(4, 14, 256),
        in_turn(2, 12, 256),
    ];
    assert_eq!(magnitudes(5), together(&printed));
}

#[test]
fn table_11_as_printed() {
    let printed = [
        steady(0, 2_048),
        in_turn(0, 1, 512),
        steady(1, 1_792),
        in_turn(1, 2, 512),
        steady(2, 1_536),
        in_turn(2, 3, 256),
        steady(3, 3_328),
        steady(2, 1_536),
        in_turn(2, 1, 512),
        steady(1, 1_536),
        in_turn(1, 0, 512),
        steady(0, 1_536),
        in_turn(2, 3, 256),
        in_turn(1, 3, 256),
        in_turn(0, 3, 256),
    ];
    assert_eq!(magnitudes(3), together(&printed));
}

#[test]
fn table_12_as_printed() {
    let printed = [
        steady(0, 4_352),
        in_turn(0, 1, 512),
        steady(1, 6_656),
        in_turn(1, 0, 512),
        steady(0, 3_584),
        steady(1, 256),
        in_turn(0, 1, 512),
    ];
    assert_eq!(magnitudes(2), together(&printed));
}

/// The least shift after which a subsequence repeats itself.
fn period(signs: &[u8]) -> Option<usize> {
    (1..signs.len() / 2).find(|&shift| signs[shift..] == signs[..signs.len() - shift])
}

/// The last subsequence is one period of 2,047 and its first sign again: no eleven signs recur
/// within it.
#[test]
fn the_signs_repeat_as_they_should() {
    let signs = signs();
    let periods: Vec<_> = signs.chunks(2_048).map(period).collect();
    let due = [1, 1, 2, 4, 32, 3, 127].map(Some);
    assert_eq!((&periods[..7], periods[7]), (due.as_slice(), None));
    let elevens: HashSet<&[u8]> = signs[7 * 2_048..].windows(11).collect();
    assert_eq!(elevens.len(), 2_048 - 10);
}

#[test]
fn the_signs_begin_as_described() {
    let begins: Vec<String> = signs()
        .chunks(2_048)
        .map(|part| part[..18].iter().map(u8::to_string).collect())
        .collect();
    let described = [
        "000000000000000000",
        "111111111111111111",
        "010101010101010101",
        "001100110011001100",
        "000000000000000011",
        "100100100100100100",
        "000001100001010001",
        "000000001010000001",
    ];
    assert_eq!(begins, described);
}

/// A magnitude has its sign's codeword: at width 3 the codewords 0 to 7 stand for +0 to +3 and -3
/// to -0.
#[test]
fn codewords_of_both_signs() {
    let codewords = i_input(3);
    for (place, (sign, magnitude)) in signs().into_iter().zip(magnitudes(3)).enumerate() {
        let due = if sign == 0 { magnitude } else { 7 - magnitude };
        assert_eq!(codewords[place], due, "at {place}");
    }
    assert_eq!([held(2)[0], held(3)[0], held(4)[1_999]], [1, 3, 7]);
}

#[test]
fn the_series_is_the_sine() {
    for steps in 0..3 * TURN {
        let angle = TAU * f64::from(steps) / f64::from(TURN);
        assert!((sine(steps) - angle.sin()).abs() < 1e-11);
        assert!((cosine(steps) - angle.cos()).abs() < 1e-11);
    }
}
