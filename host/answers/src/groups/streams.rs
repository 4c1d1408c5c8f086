//! Streams over several frames: each frame is encoded, thinned and decoded, and the editions, the widths, the laws, what is
//! dropped and the signal change from frame to frame. Tests hold the states of both ends to each other after every frame.

use super::linear_parts::{heard, sent};
use super::parts::{at_number, decode_fitting, drop, frame, frame_octets, EDITIONS};
use crate::page::Page;
use random::Random;
use second::calls;
use second::end::End;
use second::g711::Law;
use second::state::State;

/// Both ends have this state while no frame is lost; what samples each end has goes with the frame.
struct Sending {
    state: State,
    from: End,
    to: End,
    edition: u8,
    width: u8,
    kept: u8,
}

/// The three lines of one frame, and the state behind it.
fn send(page: &mut Page, s: &Sending, levels: &[i32]) -> State {
    let sent = sent(s.from, s.state, s.edition, s.width, levels);
    let mut thin = vec![0xEE; frame_octets(s.edition, s.kept, levels.len())];
    page.ask(sent.call);
    page.ask(drop(sent.frame.clone(), s.kept, thin.clone()));
    calls::drop_planes(&sent.frame, s.kept, &mut thin);
    page.ask(heard(s.to, s.state, thin));
    sent.state
}

const SEED: u64 = 10;

pub fn streams(page: &mut Page) {
    page.group(
        "streams",
        "encode, drop, decode, frame by frame; what is drawn is drawn from seed 10",
    );
    let mut random = Random::new(SEED);
    let of_law = |random: &mut Random| End::Of(random.pick(&Law::BOTH));
    for core in 2..=4 {
        for _ in 0..2 {
            let mut state = State::reset(core);
            for _ in 0..12 {
                state = one_frame(page, &mut random, state, of_law);
            }
        }
    }
}

pub fn linear_streams(page: &mut Page) {
    page.group(
        "linear-streams",
        "encode, drop, decode, frame by frame, with linear samples at either end or at both; what is drawn is drawn from seed 37",
    );
    let mut random = Random::new(37);
    let any = [End::Of(Law::Mu), End::Of(Law::A), End::Linear, End::Linear];
    for core in 2..=4 {
        let mut state = State::reset(core);
        for _ in 0..10 {
            state = one_frame(page, &mut random, state, |random| random.pick(&any));
        }
    }
}

/// Each end is drawn too.
fn one_frame(
    page: &mut Page,
    random: &mut Random,
    state: State,
    end: impl Fn(&mut Random) -> End,
) -> State {
    let core = u64::from(state.core);
    let width = core + random.below(6 - core);
    let kept = core + random.below(width - core + 1);
    let from = end(random);
    let count = 8 * (1 + random.below(5)) as usize;
    let levels = signal(random, count);
    let sending = Sending {
        state,
        from,
        to: end(random),
        edition: random.pick(&EDITIONS),
        width: width as u8,
        kept: kept as u8,
    };
    send(page, &sending, &levels)
}

/// Noise of any strength about any level, or a tone, or silence.
fn signal(random: &mut Random, count: usize) -> Vec<i32> {
    let peak = (1_i64 << random.below(14)) as f64;
    let turn = random.fraction();
    let level = |random: &mut Random, n: usize| match count % 3 {
        0 => peak * random.fraction(),
        1 => peak * (std::f64::consts::PI * turn * n as f64).sin(),
        _ => peak * turn,
    };
    (0..count)
        .map(|n| level(random, n).round() as i32)
        .collect()
}

/// A tone whose turn is a whole number of samples needs no sine: up, hold, down at about 3 kHz.
fn loud_tone(peak: i32, count: usize) -> Vec<i32> {
    const THREE_EIGHTHS: [i32; 8] = [0, 71, -100, 71, 0, -71, 100, -71];
    (0..count)
        .map(|n| peak * THREE_EIGHTHS[n % 8] / 100)
        .collect()
}

pub fn jumps(page: &mut Page) {
    page.group(
        "jumps",
        "at every core and law a tone of 3 kHz, loud or faint, and then a jump",
    );
    for core in 2..=4 {
        for law in Law::BOTH {
            for (peak, jump) in [(8_000, 8_000), (2_500, 8_000), (150, 900)] {
                let mut state = State::reset(core);
                for levels in [
                    loud_tone(peak, 320),
                    loud_tone(peak, 320),
                    vec![jump; 16],
                    loud_tone(peak / 2, 64),
                ] {
                    let sending = Sending {
                        state,
                        from: End::Of(law),
                        to: End::Of(law),
                        edition: 1,
                        width: 5,
                        kept: core,
                    };
                    state = send(page, &sending, &levels);
                }
            }
        }
    }
}

/// Edition 1 among them, which the number stays at.
const ABOUT_THE_WRAP: [u8; 8] = [2, 2, 1, 2, 2, 1, 2, 2];

pub fn wraps(page: &mut Page) {
    page.group(
        "wraps",
        "at every core from the number 253 on, frames of both editions, each dropped to another width; drawn from seed 15",
    );
    let mut random = Random::new(15);
    for core in 2..=4 {
        let mut state = at_number(core, 253);
        for (edition, turn) in ABOUT_THE_WRAP.into_iter().zip(0..) {
            let law = |number: u8| End::Of(Law::BOTH[usize::from(number % 2)]);
            let sending = Sending {
                state,
                from: law(turn),
                to: law(turn / 2),
                edition,
                width: 5,
                kept: core + turn % (6 - core),
            };
            state = send(page, &sending, &signal(&mut random, 8));
        }
    }
}

pub fn held(page: &mut Page) {
    page.group(
        "held",
        "the greatest codeword held for 1,392 samples: at the step of sample 1,388 B goes from 32,767 to the word 32,768",
    );
    for core in 2..=4_u8 {
        let mut state = State::reset(core);
        let codeword = (1 << (core - 1)) - 1;
        for count in [320, 320, 320, 320, 112] {
            let octets = frame(core, core, &vec![codeword; count]);
            page.ask(decode_fitting(state, 0, octets.clone()));
            state = calls::decode(state, 0, &octets, &mut [0; 320]).state;
        }
    }
}
