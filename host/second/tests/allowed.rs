//! Which differences a codeword allows: each difference one codeword, the thinned codeword at
//! least as much, and the places where what is allowed is not what one would expect.

use random::states::any_state;
use random::Random;
use second::engine::estimate;
use second::quantizer::{quantize, reconstruct, thinned};
use second::sample::allows;
use second::state::State;

/// A state whose scale factor Y is the given one: both scale factors are set to it.
fn at_scale(y: i32, core: u8) -> State {
    let state = State {
        yu: y as u16,
        yl: 64 * y as u32,
        ..State::reset(core)
    };
    assert_eq!(estimate(&state).y, y);
    state
}

fn sampled_scales() -> Vec<i32> {
    let mut random = Random::new(9);
    let drawn = (0..30).map(|_| 544 + random.below(4_577) as i32);
    drawn
        .chain([544, 545, 547, 548, 604, 607, 5_119, 5_120])
        .collect()
}

#[test]
fn what_a_codeword_allows_its_thinned_form_allows() {
    for y in sampled_scales() {
        for difference in -32_768..=32_767 {
            let widest = quantize(5, difference, y);
            for width in 2..=4 {
                assert_eq!(quantize(width, difference, y), thinned(5, widest, width));
            }
        }
    }
}

#[test]
fn every_difference_is_allowed_by_one_codeword_of_each_width() {
    let mut random = Random::new(10);
    for round in 0..2_000 {
        let state = any_state(&mut random, [2, 3, 4][round % 3]);
        let difference = random.draw() as i16 as i32;
        for width in 2..=5 {
            let allowing = (0..1_u8 << width)
                .filter(|&codeword| allows(&state, width, codeword, difference))
                .count();
            assert_eq!(allowing, 1);
        }
    }
}

#[test]
fn allowed_differences_are_no_interval() {
    let state = at_scale(544, 2);
    assert!(allows(&state, 5, 0b11111, -1));
    assert!(allows(&state, 5, 0b11111, -32_768));
    assert!(!allows(&state, 5, 0b11111, -32_767));
}

#[test]
fn some_codewords_allow_nothing_that_a_codec_can_form() {
    for y in 604..=607 {
        let state = at_scale(y, 2);
        for codeword in [0b00110, 0b11001] {
            assert!((-24_448..=24_448).all(|d| !allows(&state, 5, codeword, d)));
        }
    }
}

#[test]
fn a_reconstructed_difference_need_not_requantize_to_its_codeword() {
    let y = estimate(&State::reset(2)).y;
    assert_eq!(reconstruct(5, 1, y), 1);
    assert_eq!(quantize(5, 1, y), 0);
}
