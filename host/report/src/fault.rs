//! The trial unit's fault, simulated with the second codec: every bit of the codeword that is at hand
//! moves the state, where only the core bits may. An encoder has all the bits at hand, a decoder only
//! those that arrived.

use crate::sound::{levels, signal_to_noise};
use crate::states::{compare, Agreement};
use second::g711::Law;
use second::sample::{decode, encode, Decoded, Encoded};
use second::state::State;

pub const CORE: u8 = 2;
pub const WIDTH: u8 = 5;
pub const SAMPLES_A_FRAME: usize = 160;

/// The Recommendation has no scale factor table for five bits, so the faulty unit feeds back four.
const MOST_FED_BACK: u8 = 4;

#[derive(Clone, Copy, Debug, PartialEq, Eq)]
pub enum Faulty {
    /// The encoder is right. The ends go apart wherever an enhancement bit arrives.
    Decoder,
    /// The ends go apart only where planes are dropped, so a test on the bench finds nothing.
    Both,
}

pub struct Drift {
    pub width: u8,
    pub levels: Vec<i32>,
    pub snr: f64,
    pub agreement: Agreement,
    /// The first sample after which the states differ, counted from 0.
    pub sample_apart: Option<usize>,
    pub near: Vec<u32>,
    pub far: Vec<u32>,
}

/// The second codec feeds back as many bits as the state's core says. The fault is a core that is
/// taken from the codeword's width.
fn misled(state: &State, width: u8) -> State {
    State {
        core: width.min(MOST_FED_BACK),
        ..*state
    }
}

fn restored(state: State) -> State {
    State {
        core: CORE,
        ..state
    }
}

fn send(faulty: Faulty, state: &State, byte: u8) -> Encoded {
    match faulty {
        Faulty::Decoder => encode(state, Law::Mu, WIDTH, byte),
        Faulty::Both => faulty_encode(state, byte),
    }
}

fn faulty_encode(state: &State, byte: u8) -> Encoded {
    let encoded = encode(&misled(state, WIDTH), Law::Mu, WIDTH, byte);
    Encoded {
        state: restored(encoded.state),
        ..encoded
    }
}

fn faulty_decode(state: &State, width: u8, codeword: u8) -> Decoded {
    let decoded = decode(&misled(state, width), Law::Mu, width, codeword);
    Decoded {
        state: restored(decoded.state),
        ..decoded
    }
}

/// A stream of (5,2), all but `width` planes dropped on the way.
pub fn at_width(faulty: Faulty, speech: &[u8], width: u8) -> Drift {
    let (mut near, mut far) = (State::reset(CORE), State::reset(CORE));
    let (mut sent, mut arrived) = (Vec::new(), Vec::new());
    let mut heard = Vec::with_capacity(speech.len());
    let mut sample_apart = None;
    for frame in speech.chunks(SAMPLES_A_FRAME) {
        for &byte in frame {
            let encoded = send(faulty, &near, byte);
            let decoded = faulty_decode(&far, width, encoded.codeword >> (WIDTH - width));
            heard.push(decoded.byte);
            (near, far) = (encoded.state, decoded.state);
            if near != far && sample_apart.is_none() {
                sample_apart = Some(heard.len() - 1);
            }
        }
        sent.push(near);
        arrived.push(far);
    }
    let levels_heard = levels(&heard);
    Drift {
        width,
        snr: signal_to_noise(&levels(speech), &levels_heard),
        levels: levels_heard,
        agreement: compare(&sent, &arrived),
        sample_apart,
        near: sent.iter().map(|state| state.yl).collect(),
        far: arrived.iter().map(|state| state.yl).collect(),
    }
}

#[cfg(test)]
mod tests {
    use super::*;

    /// A ramp over many levels, loud and quiet in turn.
    fn speech() -> Vec<u8> {
        (0..1_600u32).map(|n| (n * n / 7 % 251) as u8).collect()
    }

    fn first_apart(faulty: Faulty, width: u8) -> Option<usize> {
        at_width(faulty, &speech(), width).agreement.first_apart
    }

    #[test]
    fn two_faulty_units_agree_while_no_bit_that_moves_them_is_dropped() {
        let found = [5, 4, 3, 2].map(|width| first_apart(Faulty::Both, width));
        assert_eq!(found, [None, None, Some(0), Some(0)]);
    }

    #[test]
    fn one_faulty_unit_agrees_only_where_no_enhancement_bit_arrives() {
        let found = [5, 4, 3, 2].map(|width| first_apart(Faulty::Decoder, width));
        assert_eq!(found, [Some(0), Some(0), Some(0), None]);
    }

    #[test]
    fn restoring_leaves_a_state_of_the_right_core_in_range() {
        let encoded = faulty_encode(&State::reset(CORE), 0x80);
        assert_eq!(encoded.state.core, CORE);
        assert!(encoded.state.in_range());
    }
}
