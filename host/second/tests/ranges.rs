//! The table of ranges row by row, the law that a step from a state in range ends in range, and
//! the bounds that the signed engine rests on.

use random::states::any_state;
use random::Random;
use second::calls;
use second::engine::{advance, estimate};
use second::quantizer::reconstruct;
use second::state::State;

fn reset() -> State {
    State::reset(3)
}

/// Whether a state that differs from reset in one field is in range, for each value tried.
fn check<T: Copy>(set: impl Fn(&mut State, T), inside: &[T], outside: &[T]) {
    for (values, wanted) in [(inside, true), (outside, false)] {
        for &value in values {
            let mut state = reset();
            set(&mut state, value);
            assert_eq!(state.in_range(), wanted, "{state:?}");
        }
    }
}

#[test]
fn reset_is_in_range_at_every_core() {
    for core in 2..=4 {
        let answer = calls::reset(core);
        assert!(answer.state.in_range());
        assert_eq!(answer.state.core, core);
    }
}

#[test]
fn rows_of_scale_and_speed() {
    check(|s, v| s.yu = v, &[544, 5_120], &[0, 543, 5_121, 65_535]);
    check(
        |s, v| s.yl = v,
        &[34_816, 327_680],
        &[0, 34_815, 327_681, 1 << 19, u32::MAX],
    );
    check(|s, v| s.dms = v, &[0, 3_584], &[3_585, 65_535]);
    check(|s, v| s.dml = v, &[0, 14_336], &[14_337, 65_535]);
    check(|s, v| s.ap = v, &[0, 512], &[513, 65_535]);
}

#[test]
fn rows_of_coefficients_allow_any_word() {
    let words = [0, 1, 12_289, 32_767, 32_768, 65_535];
    check(|s, v| s.a1 = v, &words, &[]);
    check(|s, v| s.a2 = v, &words, &[]);
    for i in 0..6 {
        check(|s, v| s.b[i] = v, &words, &[]);
    }
}

#[test]
fn the_row_of_the_number_allows_any_octet() {
    check(|s, v| s.number = v, &Vec::from_iter(0..=255), &[]);
}

/// 960 is exponent 15 with no mantissa, 1,984 the same with the sign.
#[test]
fn rows_of_floating_point_words() {
    let below_fifteen = [32, 63, 896 + 32, 896 + 63, 1_024 + 32, 1_024 + 896 + 63];
    let fifteen = [960 + 32, 960 + 63, 1_984 + 32, 1_984 + 63];
    let never = [
        0,
        31,
        64,
        95,
        896,
        960 + 31,
        1_024,
        2_048,
        2_048 + 32,
        65_535,
    ];
    let not_of_dq = [&fifteen[..], &never].concat();
    let of_sr = [&below_fifteen[..], &fifteen].concat();
    for i in 0..6 {
        check(|s, v| s.dq[i] = v, &below_fifteen, &not_of_dq);
    }
    check(|s, v| s.sr1 = v, &of_sr, &never);
    check(|s, v| s.sr2 = v, &of_sr, &never);
}

#[test]
fn rows_of_bits_and_of_the_core() {
    check(|s, v| s.pk1 = v, &[0, 1], &[2, 128, 255, 256, 65_535]);
    check(|s, v| s.pk2 = v, &[0, 1], &[2, 128, 255, 256, 65_535]);
    check(|s, v| s.td = v, &[0, 1], &[2, 128, 255, 256, 65_535]);
    check(|s, v| s.core = v, &[2, 3, 4], &[0, 1, 5, 7, 255]);
}

#[test]
fn a_step_from_a_state_in_range_ends_in_range() {
    let mut random = Random::new(6);
    for round in 0..600_000 {
        let core = [2, 3, 4][round % 3];
        let state = any_state(&mut random, core);
        assert!(state.in_range());
        let next = advance(&state, random.below(1 << core) as u8);
        assert!(next.in_range(), "{next:?} after {state:?}");
        assert_eq!(next.core, core);
    }
}

/// LIMC and LIMD hold both pole coefficients after every step, whatever they were before.
#[test]
fn pole_coefficients_are_held_after_one_step() {
    let mut random = Random::new(7);
    for round in 0..300_000 {
        let core = [2, 3, 4][round % 3];
        let state = any_state(&mut random, core);
        let next = advance(&state, random.below(1 << core) as u8);
        let (a1, a2) = (i32::from(next.a1 as i16), i32::from(next.a2 as i16));
        assert!(a2.abs() <= 12_288);
        assert!(a1.abs() <= 15_360 - a2);
    }
}

#[test]
fn estimates_keep_their_bits() {
    let mut random = Random::new(8);
    for round in 0..300_000 {
        let now = estimate(&any_state(&mut random, [2, 3, 4][round % 3]));
        assert!((544..=5_120).contains(&now.y));
        assert!((-16_384..=16_383).contains(&now.se));
        assert!((-16_384..=16_383).contains(&now.sez));
    }
}

/// So the sign of a difference on the feedback path is never lost in a signed number.
#[test]
fn core_differences_have_a_magnitude_from_1_to_11008() {
    let magnitudes = (2..=4_u8).flat_map(|core| {
        (544..=5_120).flat_map(move |y| {
            (0..1_u8 << core).map(move |codeword| reconstruct(core, codeword, y).abs())
        })
    });
    let (least, greatest) = magnitudes.fold((i32::MAX, 0), |(least, greatest), size| {
        (size.min(least), size.max(greatest))
    });
    assert_eq!((least, greatest), (1, 11_008));
}
