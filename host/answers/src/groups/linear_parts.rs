//! What the groups about linear samples are made of: samples with a pattern, buffers, calls, and a frame between ends of any kind.

use super::parts::{decode_fitting, encode_fitting, frame_octets};
use crate::call::{Call, DecodeLinear, EncodeLinear};
use second::calls;
use second::end::End;
use second::g711::compress;
use second::state::State;

/// The ends of the scale, by the rules.
pub const LEAST: i16 = -8_192;
pub const GREATEST: i16 = 8_191;

/// Levels from all over the scale.
pub fn linear_samples(count: usize) -> Vec<i16> {
    (0..count)
        .map(|n| (n * 1_237 + 4_001) as i16 & 0x3FFF)
        .map(|place| place + LEAST)
        .collect()
}

/// A buffer as it is handed in: no two neighbours are alike, and none is a sample that a decoder gives.
pub fn linear_room(samples: usize) -> Vec<i16> {
    (0..samples)
        .map(|n| 0x6001 + (n * 0x11D) as i16 % 0x1000)
        .collect()
}

pub fn encode_linear(
    state: State,
    edition: u8,
    width: u8,
    samples: Vec<i16>,
    out: Vec<u8>,
) -> Call {
    Call::EncodeLinear(EncodeLinear {
        state,
        edition,
        width,
        samples,
        out,
    })
}

pub fn decode_linear(state: State, frame: Vec<u8>, out: Vec<i16>) -> Call {
    Call::DecodeLinear(DecodeLinear { state, frame, out })
}

/// With a buffer just long enough, all of one octet or sample.
pub fn encode_linear_fitting(state: State, edition: u8, width: u8, samples: Vec<i16>) -> Call {
    let out = vec![0xEE; frame_octets(edition, width, samples.len())];
    encode_linear(state, edition, width, samples, out)
}

pub fn decode_linear_fitting(state: State, frame: Vec<u8>) -> Call {
    let out = vec![0x6EEE; 8 * usize::from(frame[1])];
    decode_linear(state, frame, out)
}

/// A frame that is to be encoded.
pub struct Sent {
    pub call: Call,
    pub frame: Vec<u8>,
    /// Behind it.
    pub state: State,
}

/// The frame of these levels, each as near to it as the end has one.
pub fn sent(from: End, state: State, edition: u8, width: u8, levels: &[i32]) -> Sent {
    let mut frame = vec![0; frame_octets(edition, width, levels.len())];
    let (call, answer) = match from {
        End::Of(law) => {
            let octets: Vec<u8> = levels.iter().map(|&level| compress(law, level)).collect();
            let law = law.number();
            let answer = calls::encode(state, law, edition, width, &octets, &mut frame);
            (encode_fitting(state, law, edition, width, octets), answer)
        }
        End::Linear => {
            let samples: Vec<i16> = levels.iter().map(|&level| on_scale(level)).collect();
            let answer = calls::encode_linear(state, edition, width, &samples, &mut frame);
            (
                encode_linear_fitting(state, edition, width, samples),
                answer,
            )
        }
    };
    Sent {
        call,
        frame,
        state: answer.state,
    }
}

pub fn heard(to: End, state: State, frame: Vec<u8>) -> Call {
    match to {
        End::Of(law) => decode_fitting(state, law.number(), frame),
        End::Linear => decode_linear_fitting(state, frame),
    }
}

fn on_scale(level: i32) -> i16 {
    level.clamp(LEAST.into(), GREATEST.into()) as i16
}
