//! Calls drawn as a fuzzer would: each with mostly sound inputs, some spoilt in one place, some garbage.

use super::linear_parts::{decode_linear, encode_linear};
use super::parts::{decode, drop, encode, frame, frame_octets, in_edition, EDITIONS};
use super::states::likely_state;
use crate::call::Call;
use crate::page::Page;
use random::states::{any_state, coefficient, PAIRS};
use random::Random;
use second::state::State;

const SEED: u64 = 14;
const CALLS: usize = 1_500;

pub fn drawn(page: &mut Page) {
    page.group(
        "drawn",
        "1,500 calls from seed 14, mostly sound, some spoilt in one place, some garbage",
    );
    let mut random = Random::new(SEED);
    for _ in 0..CALLS {
        let call = any_call(&mut random);
        page.ask(call);
    }
}

pub fn linear_drawn(page: &mut Page) {
    page.group(
        "linear-drawn",
        "100 linear calls from seed 39, mostly sound, some spoilt in one place, some garbage",
    );
    let mut random = Random::new(39);
    for _ in 0..50 {
        page.ask(any_encode_linear(&mut random));
        page.ask(any_decode_linear(&mut random));
    }
}

fn any_call(random: &mut Random) -> Call {
    match random.below(16) {
        0 => Call::Reset(any_core(random)),
        1..=4 => any_drop(random),
        5..=10 => any_decode(random),
        _ => any_encode(random),
    }
}

fn any_core(random: &mut Random) -> u8 {
    match random.below(4) {
        0 => random.byte(),
        _ => random.below(8) as u8,
    }
}

fn any_law(random: &mut Random) -> u8 {
    match random.below(24) {
        0 => random.byte(),
        _ => random.below(2) as u8,
    }
}

/// In range, and one time in eight one word of it is anything.
fn some_state(random: &mut Random, core: u8) -> State {
    let mut state = match random.below(2) {
        0 => any_state(random, core),
        _ => likely_state(random, core),
    };
    if random.below(8) == 0 {
        spoil(random, &mut state);
    }
    state
}

fn spoil(random: &mut Random, state: &mut State) {
    let word = random.draw() as u16;
    match random.below(16) {
        0 => state.yu = word,
        1 => state.yl = random.draw() as u32 >> random.below(32),
        2 => state.dms = word,
        3 => state.dml = word,
        4 => state.ap = word,
        5 => state.a1 = coefficient(random),
        6 => state.a2 = coefficient(random),
        7 | 8 => state.b[usize::from(word) % 6] = coefficient(random),
        9 | 10 => state.dq[usize::from(word) % 6] = word % 4_096,
        11 => state.sr1 = word % 4_096,
        12 => state.sr2 = word % 4_096,
        13 => state.pk1 = word,
        14 => state.td = word,
        _ => state.core = word as u8,
    }
}

fn some_room(random: &mut Random, due: usize) -> Vec<u8> {
    let length = some_length(random, due);
    vec![random.byte(); length]
}

/// As much as is due, or a little less or more.
fn some_length(random: &mut Random, due: usize) -> usize {
    match random.below(12) {
        0 => 0,
        1 => due.saturating_sub(1),
        2 => due + 1,
        3 => due + 5,
        _ => due,
    }
}

fn some_count(random: &mut Random) -> usize {
    match random.below(60) {
        0 => random.below(30) as usize,
        1 => 8 * random.below(42) as usize,
        _ => 8 + 8 * random.below(3) as usize,
    }
}

fn some_width(random: &mut Random, pair: (u8, u8)) -> u8 {
    match random.below(12) {
        0 => random.below(9) as u8,
        _ => pair.0,
    }
}

fn any_encode(random: &mut Random) -> Call {
    let pair = random.pick(&PAIRS);
    let state = some_state(random, pair.1);
    let width = some_width(random, pair);
    let edition = some_edition(random);
    let count = some_count(random);
    let samples = some_samples(random, count);
    let out = some_room(random, frame_octets(edition, width, count));
    encode(state, any_law(random), edition, width, samples, out)
}

fn any_encode_linear(random: &mut Random) -> Call {
    let pair = random.pick(&PAIRS);
    let state = some_state(random, pair.1);
    let width = some_width(random, pair);
    let edition = some_edition(random);
    let count = some_count(random);
    let samples = some_linear_samples(random, count);
    let out = some_room(random, frame_octets(edition, width, count));
    encode_linear(state, edition, width, samples, out)
}

/// About one level, loud or faint. In one frame of eight a sample is anything.
fn some_linear_samples(random: &mut Random, count: usize) -> Vec<i16> {
    let (level, spread) = (random.below(16_384) as i32, 1 << random.below(15));
    let mut any = || (level + random.below(spread) as i32) % 16_384 - 8_192;
    let mut samples: Vec<i16> = (0..count).map(|_| any() as i16).collect();
    if random.below(8) == 0 && count > 0 {
        let place = random.below(count as u64) as usize;
        samples[place] = random.draw() as i16;
    }
    samples
}

fn some_edition(random: &mut Random) -> u8 {
    match random.below(24) {
        0 => random.byte(),
        _ => random.pick(&EDITIONS),
    }
}

/// Any octets, or octets about one level of either sign.
fn some_samples(random: &mut Random, count: usize) -> Vec<u8> {
    let (level, spread) = (random.byte(), 1 << random.below(9));
    let any = |random: &mut Random| {
        level.wrapping_add(random.below(spread) as u8) ^ (random.byte() & 0x80)
    };
    (0..count).map(|_| any(random)).collect()
}

fn any_decode(random: &mut Random) -> Call {
    let pair = random.pick(&PAIRS);
    let state = some_state(random, pair.1);
    let number = some_number(random, state.number);
    let frame = some_frame(random, pair, number);
    let samples = frame.get(1).map_or(0, |&groups| 8 * usize::from(groups));
    let out = some_room(random, samples.min(330));
    decode(state, any_law(random), frame, out)
}

fn any_decode_linear(random: &mut Random) -> Call {
    let pair = random.pick(&PAIRS);
    let state = some_state(random, pair.1);
    let number = some_number(random, state.number);
    let frame = some_frame(random, pair, number);
    let due = frame.get(1).map_or(0, |&groups| 8 * usize::from(groups));
    let length = some_length(random, due.min(330));
    decode_linear(state, frame, vec![random.draw() as i16; length])
}

/// Mostly the one that is due.
fn some_number(random: &mut Random, due: u8) -> u8 {
    match random.below(8) {
        0 => random.byte(),
        1 => due.wrapping_add(1),
        _ => due,
    }
}

fn any_drop(random: &mut Random) -> Call {
    let pair = random.pick(&PAIRS);
    let number = random.byte();
    let frame = some_frame(random, pair, number);
    let width = match random.below(8) {
        0 => random.below(9) as u8,
        _ => pair.1 + random.below(u64::from(pair.0 - pair.1) + 1) as u8,
    };
    let samples = frame.get(1).map_or(0, |&groups| 8 * usize::from(groups));
    let edition = frame.first().map_or(1, |first| first >> 6);
    let out = some_room(random, frame_octets(edition, width, samples.min(330)));
    drop(frame, width, out)
}

fn some_frame(random: &mut Random, pair: (u8, u8), number: u8) -> Vec<u8> {
    let (width, core) = pair;
    let count = 8 + 8 * random.below(3) as usize;
    let codewords: Vec<u8> = (0..count).map(|_| random.below(1 << width) as u8).collect();
    let plain = frame(width, core, &codewords);
    let mut octets = in_edition(random.pick(&EDITIONS), number, plain);
    match random.below(24) {
        0 => octets = random.bytes(count),
        1 => octets.truncate(random.below(8) as usize),
        2 => octets.push(0),
        3 => octets[0] ^= 1 << random.below(8),
        4 => octets[1] = random.byte(),
        _ => {}
    }
    octets
}
