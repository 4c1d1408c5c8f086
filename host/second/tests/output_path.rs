//! One sample at a time against the printed tables: QUAN at the encoder's width, and the output
//! path of the decoder with SYNC at the width received. At the pairs (2,2), (3,3) and (4,4) a
//! SYNC at core width would pass; the other six tell them apart.

mod support;

use random::states::{any_state, PAIRS};
use random::Random;
use second::engine::{advance, estimate, Estimate};
use second::g711::{compress, expand, Law};
use second::logarithm::normalized_log;
use second::quantizer::reconstruct;
use second::sample::{decode, encode};
use second::state::State;
use std::cmp::Ordering;
use support::printed;

fn dln_word(difference: i32, y: i32) -> i32 {
    normalized_log(difference, y) & 4_095
}

/// All bytes from the most negative level up, mu-law's 7F before its FF.
fn ladder(law: Law) -> Vec<u8> {
    let mut bytes: Vec<u8> = (0..=255).collect();
    bytes.sort_by_key(|&byte| (expand(law, byte), byte == 0xFF));
    bytes
}

/// The nearest byte on the ladder with another level, on the side asked for; else the byte.
fn neighbour(law: Law, byte: u8, side: Ordering) -> u8 {
    let ladder = ladder(law);
    let place = ladder.iter().position(|&other| other == byte).unwrap();
    let (below, above) = (&ladder[..place], &ladder[place..]);
    let on_side = |&&other: &&u8| expand(law, other).cmp(&expand(law, byte)) == side;
    let found = match side {
        Ordering::Less => below.iter().rev().find(on_side),
        _ => above.iter().find(on_side),
    };
    *found.unwrap_or(&byte)
}

/// How the place of the byte's codeword, by Tables 17 to 20, stands to that of the received one.
fn printed_order(law: Law, width: u8, received: u8, sp: u8, now: Estimate) -> Ordering {
    let dx = expand(law, sp) - now.se;
    let id = printed::id(width, u8::from(dx < 0), dln_word(dx, now.y));
    let half = 1 << (width - 1);
    let im = match received >> (width - 1) {
        0 => received + half,
        _ => received & (half - 1),
    };
    id.cmp(&im)
}

fn check_decoder(state: &State, law: Law, width: u8, codeword: u8) -> bool {
    let now = estimate(state);
    let sp = compress(law, reconstruct(width, codeword, now.y) + now.se);
    let order = printed_order(law, width, codeword, sp, now);
    let sd = match order {
        Ordering::Equal => sp,
        side => neighbour(law, sp, side.reverse()),
    };
    let found = decode(state, law, width, codeword);
    assert_eq!(found.byte, sd, "{codeword:b} at {width}, {state:?}");
    assert_eq!(found.compressed, sp);
    assert_eq!(found.disagrees, order != Ordering::Equal);
    assert_eq!(
        found.state,
        advance(state, codeword >> (width - state.core))
    );
    found.byte != sp
}

fn check_encoder(state: &State, law: Law, width: u8, byte: u8) {
    let now = estimate(state);
    let d = expand(law, byte) - now.se;
    let i = printed::quan(width, u8::from(d < 0), dln_word(d, now.y));
    let found = encode(state, law, width, byte);
    assert_eq!(found.codeword, i, "{byte:02X} at {width}, {state:?}");
    assert_eq!(found.state, advance(state, i >> (width - state.core)));
}

#[test]
fn one_sample_from_any_state_at_every_pair() {
    let mut random = Random::new(30);
    for (width, core) in PAIRS {
        for law in Law::BOTH {
            let mut moved = 0;
            for _ in 0..3_000 {
                let state = any_state(&mut random, core);
                let codeword = random.below(1 << width) as u8;
                moved += u32::from(check_decoder(&state, law, width, codeword));
                check_encoder(&state, law, width, random.byte());
            }
            assert!(moved > 0);
        }
    }
}

/// Quiet states, where levels and intervals are nearly of one size and bytes often move.
#[test]
fn quiet_streams_at_every_pair() {
    let mut random = Random::new(31);
    for (width, core) in PAIRS {
        for law in Law::BOTH {
            let mut state = State::reset(core);
            for _ in 0..2_000 {
                let codeword = encode(&state, law, width, quiet_byte(&mut random, law)).codeword;
                check_decoder(&state, law, width, codeword);
                state = decode(&state, law, width, codeword).state;
            }
        }
    }
}

fn quiet_byte(random: &mut Random, law: Law) -> u8 {
    compress(law, random.below(61) as i32 - 30)
}
