//! Whole streams: a decoder's state stays the encoder's while planes are dropped at random and
//! width and edition change from frame to frame, whichever samples either end has, and a held
//! codeword takes a coefficient past 32,767.

use random::states::{any_state, PAIRS};
use random::Random;
use second::calls::{
    self, decode, decode_linear, drop_planes, encode, encode_linear, EncodeAnswer,
};
use second::end::End;
use second::frame::{read_header, unpack};
use second::g711::{compress, Law};
use second::sample;
use second::state::State;

/// One frame of an edition and a width, each level as near as the end has one.
fn encode_levels(
    from: End,
    state: State,
    (edition, width): (u8, u8),
    levels: &[i32],
    out: &mut [u8],
) -> EncodeAnswer {
    match from {
        End::Of(law) => {
            let pcm = compressed(law, levels);
            encode(state, law.number(), edition, width, &pcm, out)
        }
        End::Linear => {
            let samples: Vec<i16> = levels.iter().map(|&level| level as i16).collect();
            encode_linear(state, edition, width, &samples, out)
        }
    }
}

/// The number, how many samples were written, and the state.
fn decode_either(to: End, state: State, frame: &[u8]) -> (u8, usize, State) {
    match to {
        End::Of(law) => {
            let answer = decode(state, law.number(), frame, &mut [0; 320]);
            (answer.number, answer.octets, answer.state)
        }
        End::Linear => {
            let answer = decode_linear(state, frame, &mut [0; 320]);
            (answer.number, answer.samples, answer.state)
        }
    }
}

/// Noise around a level, both drawn anew for every frame.
fn levels(random: &mut Random, count: usize) -> Vec<i32> {
    let strength = 1 << random.below(14);
    let offset = random.below(2 * strength) as i32 - strength as i32;
    let level =
        |_| (random.below(2 * strength) as i32 - strength as i32 + offset).clamp(-8_192, 8_191);
    (0..count).map(level).collect()
}

fn compressed(law: Law, levels: &[i32]) -> Vec<u8> {
    levels.iter().map(|&level| compress(law, level)).collect()
}

fn pcm(random: &mut Random, law: Law, count: usize) -> Vec<u8> {
    compressed(law, &levels(random, count))
}

/// One frame sent through a random drop to an end of any kind; both states after it.
fn send(random: &mut Random, from: End, core: u8, states: (State, State)) -> (State, State) {
    let width = core + random.below(u64::from(6 - core)) as u8;
    let samples = 8 * (1 + random.below(40) as usize);
    let edition = 1 + random.below(2) as u8;
    let mut frame = [0; 203];
    let input = levels(random, samples);
    let sent = encode_levels(from, states.0, (edition, width), &input, &mut frame);
    assert_eq!(sent.number, 0);
    let target = core + random.below(u64::from(width - core + 1)) as u8;
    let mut thin = [0; 203];
    let dropped = drop_planes(&frame[..sent.octets], target, &mut thin);
    assert_eq!(dropped.number, 0);
    let to = random.pick(&End::ALL);
    let (number, written, heard) = decode_either(to, states.1, &thin[..dropped.octets]);
    assert_eq!((number, written), (0, samples), "{from:?} to {to:?}");
    (sent.state, heard)
}

#[test]
fn the_decoder_follows_the_encoder_while_planes_are_dropped() {
    let mut random = Random::new(11);
    for core in 2..=4 {
        for from in End::ALL {
            let start = calls::reset(core).state;
            let mut states = (start, start);
            for frame in 0..300 {
                states = send(&mut random, from, core, states);
                assert_eq!(
                    states.0, states.1,
                    "frame {frame} of {from:?} at core {core}"
                );
                assert!(states.0.in_range());
            }
            assert_ne!(states.0, start);
        }
    }
}

#[test]
fn a_thinned_frame_is_the_narrower_encoder_s_octet_for_octet() {
    let mut random = Random::new(14);
    for (width, core) in PAIRS {
        for edition in [1, 2] {
            let state = any_state(&mut random, core);
            let input = pcm(&mut random, Law::Mu, 80);
            let [mut wide, mut narrow, mut thin] = [[0xEE; 60]; 3];
            let sent = encode(state, 0, edition, 5, &input, &mut wide);
            let direct = encode(state, 0, edition, width, &input, &mut narrow);
            let dropped = drop_planes(&wide[..sent.octets], width, &mut thin);
            assert_eq!((dropped.number, dropped.octets), (0, direct.octets));
            assert_eq!((thin, sent.state), (narrow, direct.state));
        }
    }
}

/// The state depends on the core bits alone: whatever the enhancement bits, it moves alike.
#[test]
fn enhancement_bits_do_not_reach_the_state() {
    let mut random = Random::new(12);
    for (width, core) in PAIRS {
        let mut states = [State::reset(core); 2];
        for _ in 0..3_000 {
            let core_bits = (random.below(1 << core) as u8) << (width - core);
            for state in &mut states {
                let codeword = core_bits | random.below(1 << (width - core)) as u8;
                *state = sample::decode(state, Law::Mu, width, codeword).state;
            }
            assert_eq!(states[0], states[1]);
        }
    }
}

/// At width 2 the intervals are so wide that none of these bytes disagrees.
#[test]
fn the_count_is_that_of_samples_that_disagree() {
    let mut random = Random::new(13);
    for (width, core) in PAIRS {
        let (mut sender, mut receiver) = (State::reset(core), State::reset(core));
        let mut ever = 0;
        for _ in 0..20 {
            let mut frame = vec![0; 2 + 40 * usize::from(width)];
            let input = pcm(&mut random, Law::A, 320);
            sender = encode(sender, 1, 1, width, &input, &mut frame).state;
            let mut state = receiver;
            let mut disagreements = 0;
            let header = read_header(&frame).unwrap();
            for codeword in unpack(header, &frame) {
                let decoded = sample::decode(&state, Law::A, width, codeword);
                disagreements += usize::from(decoded.disagrees);
                state = decoded.state;
            }
            let answer = decode(receiver, 1, &frame, &mut [0; 320]);
            let found = (answer.disagreements, answer.state);
            assert_eq!(found, (disagreements, state));
            receiver = answer.state;
            ever += disagreements;
        }
        assert!(ever > 0 || width == 2, "at ({width},{core})");
    }
}

fn held_codeword_frame() -> Vec<u8> {
    let mut frame = vec![0x52, 0x28];
    frame.extend([0x00; 40]);
    frame.extend([0xFF; 40]);
    frame
}

/// Speech does not come here, so a test with speech alone would not see a coefficient clamped at
/// 32,767. Samples are counted from 0 over five frames of 320.
#[test]
fn a_held_codeword_takes_the_b_coefficients_from_32767_to_32768() {
    let frame = held_codeword_frame();
    let header = read_header(&frame).unwrap();
    let mut state = calls::reset(2).state;
    let mut turned = None;
    for index in 0..5 {
        let answer = decode(state, 0, &frame, &mut [0; 320]);
        assert_eq!((answer.number, answer.octets), (0, 320));
        for (place, codeword) in unpack(header, &frame).into_iter().enumerate() {
            let next = sample::decode(&state, Law::Mu, 2, codeword).state;
            if turned.is_none() && next.b.contains(&32_768) {
                turned = Some(320 * index + place);
                assert_eq!((state.b, next.b), ([32_767; 6], [32_768; 6]));
            }
            state = next;
        }
        assert_eq!(answer.state, state);
    }
    assert_eq!(turned, Some(1_388));
}

/// The sample, counted from 0, whose step first makes some B the word 32,768.
fn turning_sample(core: u8, codeword: u8) -> Option<usize> {
    let mut state = State::reset(core);
    (0..1_600).find(|_| {
        state = sample::decode(&state, Law::Mu, core, codeword).state;
        state.b.contains(&32_768)
    })
}

/// The reset words of past differences are positive, so that a negative codeword first has to
/// undo what its first steps did and comes two samples later.
#[test]
fn every_held_codeword_of_every_core_does_so() {
    for core in 2..=4_u8 {
        for codeword in 0..1_u8 << core {
            let negative = codeword >> (core - 1) == 1;
            let due = if negative { 1_390 } else { 1_388 };
            assert_eq!(turning_sample(core, codeword), Some(due));
        }
    }
}
