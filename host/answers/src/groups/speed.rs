//! Scale factor and speed control at their edges: MIX and LIMA about AP = 256 and with YU on either side of YL; FILTD, LIMB and
//! FILTE about the ends of YU and YL; FILTA to FILTC, SUBTC and TRIGA about the ends of DMS and DML, Y = 1,536 and the
//! threshold DML / 8.

use super::parts::{decode_fitting, frame};
use super::states::{at_scale, drawn_codewords};
use crate::page::Page;
use random::states::{any_state, bit};
use random::Random;
use second::state::State;

/// One frame of 8 samples at the core's own width, with a first codeword.
fn decoded(page: &mut Page, random: &mut Random, state: State, first: u8) {
    let core = state.core;
    let codewords = drawn_codewords(random, core, first);
    let law = random.below(2) as u8;
    page.ask(decode_fitting(state, law, frame(core, core, &codewords)));
}

fn any_codeword(random: &mut Random, core: u8) -> u8 {
    random.below(1 << core) as u8
}

pub fn mixing(page: &mut Page) {
    page.group(
        "mixing",
        "MIX and LIMA: AP about 256 and about its steps, YU about YL and far from it; from seed 5",
    );
    let mut random = Random::new(5);
    for ap in [
        0, 1, 3, 4, 5, 127, 128, 251, 252, 253, 254, 255, 256, 257, 258, 259, 260, 261, 511, 512,
    ] {
        for (yu, yl) in [
            (544, 327_680),
            (5_120, 34_816),
            (2_000, 128_000),
            (2_001, 128_000),
            (1_999, 128_063),
        ] {
            let core = 2 + random.below(3) as u8;
            let state = State {
                ap,
                yu,
                yl,
                ..State::reset(core)
            };
            let first = any_codeword(&mut random, core);
            decoded(page, &mut random, state, first);
        }
    }
}

pub fn scales(page: &mut Page) {
    page.group("scales", "FILTD, LIMB, FILTE: every core magnitude with Y about both ends of YU and between, YL on either side; from seed 6");
    let mut random = Random::new(6);
    for core in 2..=4 {
        for magnitude in 0..1 << (core - 1) {
            for y in [
                544, 545, 551, 575, 576, 700, 1_535, 1_536, 2_560, 4_000, 4_900, 5_088, 5_089,
                5_119, 5_120,
            ] {
                let yl = random.pick(&[
                    34_816,
                    34_879,
                    34_880,
                    64 * u32::from(y),
                    64 * u32::from(y) + 1,
                    327_617,
                    327_680,
                ]);
                let state = State {
                    yl: yl.clamp(34_816, 327_680),
                    ..at_scale(core, y)
                };
                decoded(page, &mut random, state, magnitude);
            }
        }
    }
}

pub fn averages(page: &mut Page) {
    page.group(
        "averages",
        "FILTA to FILTC, SUBTC, TRIGA: 4 DMS about DML and DML / 8 off it, Y about 1,536, AP at its ends; from seed 7",
    );
    let mut random = Random::new(7);
    for round in 0..600 {
        let core = 2 + (round % 3) as u8;
        let state = match round % 6 {
            0 | 1 => any_state(&mut random, core),
            _ => near_steady(&mut random, core),
        };
        let first = any_codeword(&mut random, core);
        decoded(page, &mut random, state, first);
    }
}

/// With YL at 64 times YU that is the scale factor whatever AP is.
fn near_steady(random: &mut Random, core: u8) -> State {
    let dml = random.within(0, 14_336) as u16;
    let y = y_about_1536(random);
    State {
        yu: y,
        yl: 64 * u32::from(y),
        dms: near_quarter(random, dml),
        dml,
        ap: random.pick(&[0, 1, 15, 16, 17, 240, 256, 496, 511, 512]),
        td: bit(random),
        ..State::reset(core)
    }
}

fn y_about_1536(random: &mut Random) -> u16 {
    match random.below(3) {
        0 => random.within(1_530, 1_542) as u16,
        _ => random.within(544, 5_120) as u16,
    }
}

/// SUBTC compares |4 DMS - DML| with DML / 8: DMS that puts the difference about that, on either side.
fn near_quarter(random: &mut Random, dml: u16) -> u16 {
    let (dml, off) = (i32::from(dml), random.below(9) as i32 - 4);
    let side = random.pick(&[-1, 0, 1]);
    (((dml + side * (dml >> 3)) >> 2) + off).clamp(0, 3_584) as u16
}
