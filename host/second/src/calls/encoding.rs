//! A frame made of samples, which are G.711 octets or linear. Both become levels, and of a level
//! nothing tells any more what it came as.

use super::behind;
use crate::frame::{self, Header};
use crate::g711::{expand, Law};
use crate::linear;
use crate::replies::{self, demand};
use crate::sample;
use crate::state::State;

#[derive(Clone, Copy, Debug, PartialEq, Eq)]
pub struct EncodeAnswer {
    pub number: u8,
    pub octets: usize,
    pub state: State,
}

/// One frame of the edition asked for, from the whole of `pcm`.
pub fn encode(
    state: State,
    law: u8,
    edition: u8,
    width: u8,
    pcm: &[u8],
    out: &mut [u8],
) -> EncodeAnswer {
    match encode_plan(&state, law, edition, width, pcm.len(), out.len()) {
        Err(number) => refused(number, state),
        Ok((law, header)) => {
            let levels = pcm.iter().map(|&byte| expand(law, byte));
            encoded(state, header, levels, out)
        }
    }
}

/// The same from linear samples. One that is off the scale has the whole call refused.
pub fn encode_linear(
    state: State,
    edition: u8,
    width: u8,
    samples: &[i16],
    out: &mut [u8],
) -> EncodeAnswer {
    match encode_linear_plan(&state, edition, width, samples, out.len()) {
        Err(number) => refused(number, state),
        Ok(header) => {
            let levels = samples.iter().map(|&sample| i32::from(sample));
            encoded(state, header, levels, out)
        }
    }
}

fn encode_plan(
    state: &State,
    law: u8,
    edition: u8,
    width: u8,
    samples: usize,
    room: usize,
) -> Result<(Law, Header), u8> {
    demand(state.in_range(), replies::STATE_OUT_OF_RANGE)?;
    let law = Law::from_number(law).ok_or(replies::NO_SUCH_LAW)?;
    let header = header_due(state, edition, width, samples)?;
    demand(room >= header.octets(), replies::OUT_TOO_SHORT)?;
    Ok((law, header))
}

fn encode_linear_plan(
    state: &State,
    edition: u8,
    width: u8,
    samples: &[i16],
    room: usize,
) -> Result<Header, u8> {
    demand(state.in_range(), replies::STATE_OUT_OF_RANGE)?;
    let header = header_due(state, edition, width, samples.len())?;
    let on_scale = samples.iter().all(|&sample| linear::is_sample(sample));
    demand(on_scale, replies::SAMPLE_OUT_OF_RANGE)?;
    demand(room >= header.octets(), replies::OUT_TOO_SHORT)?;
    Ok(header)
}

/// The header of the frame that is asked for, where there can be such a frame.
fn header_due(state: &State, edition: u8, width: u8, samples: usize) -> Result<Header, u8> {
    demand(frame::is_edition(edition), replies::NOT_A_FRAME)?;
    demand(replies::is_pair(width, state.core), replies::NO_SUCH_PAIR)?;
    demand(frame::is_sample_count(samples), replies::BAD_SAMPLE_COUNT)?;
    Ok(Header {
        edition,
        width,
        core: state.core,
        groups: samples / frame::GROUP,
        number: frame::has_number(edition).then_some(state.number),
    })
}

fn refused(number: u8, state: State) -> EncodeAnswer {
    EncodeAnswer {
        number,
        octets: 0,
        state,
    }
}

fn encoded(
    first: State,
    header: Header,
    levels: impl Iterator<Item = i32>,
    out: &mut [u8],
) -> EncodeAnswer {
    let mut state = first;
    let codewords: Vec<u8> = levels
        .map(|level| {
            let encoded = sample::encode_level(&state, header.width, level);
            state = encoded.state;
            encoded.codeword
        })
        .collect();
    frame::pack(header, &codewords, &mut out[..header.octets()]);
    EncodeAnswer {
        number: replies::DONE,
        octets: header.octets(),
        state: behind(header, state),
    }
}
