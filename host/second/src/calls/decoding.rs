//! A frame taken apart into samples, which go out as G.711 octets or linear. The two ways out differ in
//! what they make of a reconstructed signal; the state knows nothing of them.

use super::behind;
use crate::frame::{self, Header};
use crate::g711::Law;
use crate::replies::{self, demand};
use crate::sample;
use crate::state::State;

#[derive(Clone, Copy, Debug, PartialEq, Eq)]
pub struct DecodeAnswer {
    pub number: u8,
    pub octets: usize,
    pub disagreements: usize,
    pub state: State,
}

/// What was written is counted in samples, of which each has two octets. Nothing is adjusted, so there
/// is nothing to disagree and the count is 0.
#[derive(Clone, Copy, Debug, PartialEq, Eq)]
pub struct DecodeLinearAnswer {
    pub number: u8,
    pub samples: usize,
    pub disagreements: usize,
    pub state: State,
}

/// The whole of `frame` to PCM, with the count of samples whose byte, as COMPRESS gave it, would
/// not be encoded to the codeword received.
pub fn decode(state: State, law: u8, frame: &[u8], out: &mut [u8]) -> DecodeAnswer {
    match decode_plan(&state, law, frame, out.len()) {
        Err(number) => DecodeAnswer {
            number,
            octets: 0,
            disagreements: 0,
            state,
        },
        Ok((law, header)) => {
            let mut disagreements = 0;
            let last = decode_samples(state, header, frame, out, |state, codeword| {
                let decoded = sample::decode(state, law, header.width, codeword);
                disagreements += usize::from(decoded.disagrees);
                (decoded.byte, decoded.state)
            });
            DecodeAnswer {
                number: replies::DONE,
                octets: header.samples(),
                disagreements,
                state: last,
            }
        }
    }
}

/// The whole of `frame` to linear samples.
pub fn decode_linear(state: State, frame: &[u8], out: &mut [i16]) -> DecodeLinearAnswer {
    let (number, samples, state) = match decode_linear_plan(&state, frame, out.len()) {
        Err(number) => (number, 0, state),
        Ok(header) => {
            let last = decode_samples(state, header, frame, out, |state, codeword| {
                let decoded = sample::decode_linear(state, header.width, codeword);
                (decoded.sample, decoded.state)
            });
            (replies::DONE, header.samples(), last)
        }
    };
    DecodeLinearAnswer {
        number,
        samples,
        disagreements: 0,
        state,
    }
}

fn decode_plan(state: &State, law: u8, frame: &[u8], room: usize) -> Result<(Law, Header), u8> {
    demand(state.in_range(), replies::STATE_OUT_OF_RANGE)?;
    let law = Law::from_number(law).ok_or(replies::NO_SUCH_LAW)?;
    Ok((law, header_taken(state, frame, room)?))
}

fn decode_linear_plan(state: &State, frame: &[u8], room: usize) -> Result<Header, u8> {
    demand(state.in_range(), replies::STATE_OUT_OF_RANGE)?;
    header_taken(state, frame, room)
}

/// The header of a frame that a decoder in this state takes, with room for so many samples.
fn header_taken(state: &State, frame: &[u8], room: usize) -> Result<Header, u8> {
    let header = frame::read_header(frame)?;
    demand(header.core == state.core, replies::OTHER_CORE)?;
    let due = |number| number == state.number;
    demand(header.number.is_none_or(due), replies::OTHER_NUMBER)?;
    demand(room >= header.samples(), replies::OUT_TOO_SHORT)?;
    Ok(header)
}

/// Every codeword of the frame by a step that gives its sample and the next state; the state behind
/// the frame.
fn decode_samples<Sample>(
    first: State,
    header: Header,
    frame: &[u8],
    out: &mut [Sample],
    mut step: impl FnMut(&State, u8) -> (Sample, State),
) -> State {
    let mut state = first;
    for (place, codeword) in out.iter_mut().zip(frame::unpack(header, frame)) {
        (*place, state) = step(&state, codeword);
    }
    behind(header, state)
}
