//! Linear samples: what they mean at zero, at both ends and just past them, on the way in and on the
//! way out, the rows of their calls, and that expansion followed by the linear call is the G.711 call.

mod support;

use random::states::{any_state, PAIRS};
use random::Random;
use second::calls::{decode, decode_linear, encode, encode_linear};
use second::engine::{estimate, Estimate};
use second::frame::{read_header, unpack};
use second::g711::{compress, expand, Law};
use second::logarithm::normalized_log;
use second::quantizer::reconstruct;
use second::sample;
use second::state::State;
use std::collections::BTreeSet;
use support::asked::{
    decoding_in_order, in_order, linear_samples, linearly_decoded, linearly_encoded,
    sound_linear_encoding, Fault, LinearEncoding, DECODING_FAULTS,
};
use support::printed;

/// What may not come in: the first on either side, and the last that sixteen bits hold.
const OFF_SCALE: [i16; 4] = [-8_193, 8_192, -32_768, 32_767];
const ENDS: [i16; 2] = [-8_192, 8_191];

#[test]
fn encode_linear_answers_4_5_1_2_11_3_in_this_order() {
    let faults: [Fault<LinearEncoding>; 6] = [
        (4, |ask| ask.state.ap = 513),
        (5, |ask| ask.edition = 3),
        (1, |ask| ask.width = 2),
        (2, |ask| ask.samples.truncate(12)),
        (11, |ask| ask.samples[5] = 8_192),
        (3, |ask| ask.room = 1),
    ];
    for (edition, room) in [(1, 12), (2, 13)] {
        let sound = LinearEncoding {
            edition,
            room,
            ..sound_linear_encoding()
        };
        in_order(sound, &faults, linearly_encoded);
    }
}

#[test]
fn decode_linear_answers_4_5_1_2_6_7_10_3_in_this_order() {
    let faults = DECODING_FAULTS.into_iter().filter(|fault| fault.0 != 9);
    decoding_in_order(faults, linearly_decoded);
}

/// Of every 16-bit number, as the only sample that is not 0.
#[test]
fn the_scale_goes_from_8192_below_to_8191_above() {
    for sample in i16::MIN..=i16::MAX {
        let mut samples = [0; 8];
        samples[usize::from(sample as u16 % 8)] = sample;
        let answer = encode_linear(State::reset(4), 1, 5, &samples, &mut [0; 7]);
        let due = if (-8_192..=8_191).contains(&sample) {
            0
        } else {
            11
        };
        assert_eq!(answer.number, due, "{sample}");
    }
}

/// A refusal hands back the state and writes nothing; that is looked at in `linearly_encoded`.
#[test]
fn one_sample_off_the_scale_has_the_whole_call_refused() {
    for count in [8, 16, 320] {
        for place in [0, 1, count / 2, count - 1] {
            for sample in OFF_SCALE {
                let mut ask = LinearEncoding {
                    samples: linear_samples(count),
                    room: 202,
                    ..sound_linear_encoding()
                };
                assert_eq!(linearly_encoded(&ask), 0);
                ask.samples[place] = sample;
                assert_eq!(linearly_encoded(&ask), 11, "{sample} at {place} of {count}");
            }
        }
    }
}

/// A count that no frame has is told before a sample.
#[test]
fn counts_of_samples() {
    for count in (0..=700).filter(|count| *count < 24 || (310..=340).contains(count)) {
        let sound = count % 8 == 0 && (8..=320).contains(&count);
        for (sample, sound_due) in [(8_191, 0), (8_192, 11)] {
            let ask = LinearEncoding {
                samples: vec![sample; count],
                room: 1_000,
                ..sound_linear_encoding()
            };
            let due = if sound { sound_due } else { 2 };
            assert_eq!(linearly_encoded(&ask), due, "{count}");
        }
    }
}

/// From reset at any core, at width 5, by hand: Y is 544 and the estimate 0, so that DLN is the
/// logarithm less 136. 0 and 1 have the logarithm 0, 2 has 128, 3 has 192, and either end is far above
/// the last threshold.
#[test]
fn first_codewords_at_zero_and_at_both_ends() {
    for core in 2..=4 {
        for (sample, codeword) in [
            (0, 0b00000),
            (1, 0b00000),
            (-1, 0b11111),
            (2, 0b00001),
            (-2, 0b11110),
            (3, 0b00010),
            (8_190, 0b01111),
            (8_191, 0b01111),
            (-8_191, 0b10000),
            (-8_192, 0b10000),
        ] {
            let mut out = [0; 7];
            let samples = [sample, 0, 0, 0, 0, 0, 0, 0];
            let answer = encode_linear(State::reset(core), 1, 5, &samples, &mut out);
            assert_eq!((answer.number, answer.octets), (0, 7));
            let first = out[2..]
                .iter()
                .fold(0, |bits, octet| bits << 1 | octet >> 7);
            assert_eq!(first, codeword, "{sample} at {core}");
        }
    }
}

/// QUAN's printed rows give the codeword of any sample from any state.
#[test]
fn a_sample_is_quantized_by_the_printed_tables() {
    let mut random = Random::new(50);
    for (width, core) in PAIRS {
        for round in 0..4_000 {
            let state = any_state(&mut random, core);
            let level = match round % 4 {
                0 => i32::from(random.pick(&ENDS)),
                1 => random.below(5) as i32 - 2,
                _ => random.below(16_384) as i32 - 8_192,
            };
            let Estimate { y, se, .. } = estimate(&state);
            let difference = level - se;
            assert!((-24_575..=24_575).contains(&difference));
            let dln = normalized_log(difference, y) & 4_095;
            let due = printed::quan(width, u8::from(difference < 0), dln);
            let found = sample::encode_level(&state, width, level);
            assert_eq!(found.codeword, due, "{level} at {width}, {state:?}");
        }
    }
}

/// SR, whose parts are held to the printed sub-blocks elsewhere.
fn signal(state: &State, width: u8, codeword: u8) -> i32 {
    let now = estimate(state);
    reconstruct(width, codeword, now.y) + now.se
}

/// A state, a width and a codeword whose reconstructed signal is this one.
fn at_signal(random: &mut Random, due: i32) -> (State, u8, u8) {
    loop {
        let (width, core) = random.pick(&PAIRS);
        let state = any_state(random, core);
        let mut codewords = 0..1_u8 << width;
        if let Some(codeword) = codewords.find(|&codeword| signal(&state, width, codeword) == due) {
            return (state, width, codeword);
        }
    }
}

#[test]
fn a_signal_goes_out_as_it_is_up_to_both_ends_and_is_held_past_them() {
    let mut random = Random::new(51);
    for (due, signals) in [
        (-8_192, vec![-8_192, -8_193, -8_194, -16_384, -20_000]),
        (8_191, vec![8_191, 8_192, 8_193, 16_383, 20_000]),
        (-8_191, vec![-8_191]),
        (8_190, vec![8_190]),
        (-1, vec![-1]),
        (0, vec![0]),
        (1, vec![1]),
    ] {
        for signal in signals {
            for _ in 0..3 {
                let (state, width, codeword) = at_signal(&mut random, signal);
                let found = sample::decode_linear(&state, width, codeword);
                assert_eq!(found.sample, due, "{signal} at {width}, {state:?}");
            }
        }
    }
}

/// By hand, from Table 15 and ANTILOG: at Y = 5,120 and an estimate of 0 the levels 456, 391 and 367 of
/// width 5 stand for 12,800, 8,640 and 7,648, of which the first two are past the ends.
#[test]
fn outer_codewords_at_the_greatest_scale_factor() {
    for core in 2..=4 {
        let state = State {
            yl: 327_680,
            ..State::reset(core)
        };
        for (codeword, sample) in [
            (0b01111, 8_191),
            (0b01101, 8_191),
            (0b01100, 7_648),
            (0b10011, -7_648),
            (0b10010, -8_192),
            (0b10000, -8_192),
        ] {
            assert_eq!(sample::decode_linear(&state, 5, codeword).sample, sample);
        }
    }
}

/// Every state moves as the G.711 decoder's does, and what it compresses is the sample: past the ends
/// of the scale both laws have one byte.
#[test]
fn the_linear_decoder_is_the_g711_decoder_before_compress() {
    let mut random = Random::new(52);
    let mut seen = BTreeSet::new();
    for (width, core) in PAIRS {
        for _ in 0..5_000 {
            let state = any_state(&mut random, core);
            let codeword = random.below(1 << width) as u8;
            let found = sample::decode_linear(&state, width, codeword);
            let held = signal(&state, width, codeword).clamp(-8_192, 8_191);
            assert_eq!(i32::from(found.sample), held);
            seen.insert(found.sample);
            for law in Law::BOTH {
                let kin = sample::decode(&state, law, width, codeword);
                let byte = compress(law, found.sample.into());
                assert_eq!((byte, found.state), (kin.compressed, kin.state));
            }
        }
    }
    assert_eq!(
        (seen.first(), seen.last()),
        (Some(&ENDS[0]), Some(&ENDS[1]))
    );
}

/// The samples that are written over frames of these codewords, from reset.
fn written(width: u8, core: u8, codeword: &mut dyn FnMut(&State) -> u8) -> BTreeSet<i16> {
    let mut state = State::reset(core);
    let mut seen = BTreeSet::new();
    for _ in 0..4_000 {
        let found = sample::decode_linear(&state, width, codeword(&state));
        seen.insert(found.sample);
        state = found.state;
    }
    seen
}

/// A square wave between the ends, slower every 200 samples, goes out at both ends at every pair; so do
/// outermost codewords with drawn signs.
#[test]
fn loud_streams_from_reset_are_held_at_both_ends_at_every_pair() {
    let mut random = Random::new(53);
    for (width, core) in PAIRS {
        let mut places = 0..;
        let mut square = |state: &State| {
            let place: usize = places.next().expect("without end");
            let level = ENDS[place / (1 + place / 200) % 2];
            sample::encode_level(state, width, level.into()).codeword
        };
        let half = 1_u8 << (width - 1);
        let mut drawn = |_: &State| random.pick(&[half - 1, half]);
        for seen in [
            written(width, core, &mut square),
            written(width, core, &mut drawn),
        ] {
            let outermost = (seen.first(), seen.last());
            assert_eq!(
                outermost,
                (Some(&ENDS[0]), Some(&ENDS[1])),
                "({width},{core})"
            );
        }
    }
}

#[test]
fn expansion_and_the_linear_encoder_are_the_g711_encoder_on_every_byte() {
    let mut random = Random::new(54);
    for (width, core) in PAIRS {
        for law in Law::BOTH {
            for byte in 0..=255 {
                let state = any_state(&mut random, core);
                let linear = sample::encode_level(&state, width, expand(law, byte));
                assert_eq!(linear, sample::encode(&state, law, width, byte));
            }
        }
    }
}

fn one_by_one(first: State, frame: &[u8]) -> Vec<i16> {
    let header = read_header(frame).unwrap();
    let mut state = first;
    let step = |codeword| {
        let decoded = sample::decode_linear(&state, header.width, codeword);
        state = decoded.state;
        decoded.sample
    };
    unpack(header, frame).into_iter().map(step).collect()
}

/// Frame for frame, over streams of drawn octets at either call, which the number runs through too.
#[test]
fn expansion_and_the_linear_calls_are_the_g711_calls_over_streams() {
    let mut random = Random::new(55);
    for (width, core) in PAIRS {
        for law in Law::BOTH {
            let mut state = State::reset(core);
            for _ in 0..40 {
                let (edition, count) = (1 + random.below(2) as u8, 8 * (1 + random.below(40)));
                let pcm = random.bytes(count as usize);
                let levels: Vec<i16> = pcm.iter().map(|&byte| expand(law, byte) as i16).collect();
                let [mut frame, mut other] = [[0xEE; 204]; 2];
                let sent = encode(state, law.number(), edition, width, &pcm, &mut frame);
                let linear = encode_linear(state, edition, width, &levels, &mut other);
                assert_eq!((linear, other), (sent, frame));
                let frame = &frame[..sent.octets];
                let heard = decode(state, law.number(), frame, &mut [0; 320]);
                let mut out = [0; 320];
                let linear = decode_linear(state, frame, &mut out);
                assert_eq!((linear.number, linear.state), (0, heard.state));
                assert_eq!((linear.samples, linear.disagreements), (pcm.len(), 0));
                assert_eq!(out[..pcm.len()], one_by_one(state, frame));
                state = sent.state;
            }
        }
    }
}
