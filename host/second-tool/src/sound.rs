//! Speech as it stands in a stream: an octet for each sample in G.711, two for a linear one, of which
//! the least significant comes first. LAW says which.

use filter::line::Line;
use filter::pair::law;
use filter::words::Words;
use second::calls::{self, EncodeAnswer};
use second::end::End;
use second::frame::{GROUP, MOST_GROUPS};
use second::g711::Law;
use second::linear;
use second::state::State;

const MOST_SAMPLES: usize = GROUP * MOST_GROUPS;

/// The word LAW.
pub fn end(words: &mut Words) -> Result<End, Line> {
    if words.take("linear") {
        return Ok(End::Linear);
    }
    law(words).map(End::Of)
}

/// Those of a sample.
pub fn octets(end: End) -> usize {
    match end {
        End::Of(_) => 1,
        End::Linear => 2,
    }
}

/// An octet of silence; of a linear sample each of both.
pub fn silence(end: End) -> u8 {
    match end {
        End::Of(Law::Mu) => 0xFF,
        End::Of(Law::A) => 0xD5,
        End::Linear => 0,
    }
}

pub fn encode(
    end: End,
    state: State,
    (edition, width): (u8, u8),
    speech: &[u8],
    out: &mut [u8],
) -> EncodeAnswer {
    match end {
        End::Of(law) => calls::encode(state, law.number(), edition, width, speech, out),
        End::Linear => calls::encode_linear(state, edition, width, &samples(speech), out),
    }
}

/// The number, the speech of the frame, and the state.
pub fn decode(end: End, state: State, frame: &[u8]) -> (u8, Vec<u8>, State) {
    match end {
        End::Of(law) => {
            let mut out = [0; MOST_SAMPLES];
            let answer = calls::decode(state, law.number(), frame, &mut out);
            let speech = out[..answer.octets].to_vec();
            (answer.number, speech, answer.state)
        }
        End::Linear => {
            let mut out = [0; MOST_SAMPLES];
            let answer = calls::decode_linear(state, frame, &mut out);
            let samples = out[..answer.samples].iter();
            let speech = samples.flat_map(|sample| sample.to_le_bytes()).collect();
            (answer.number, speech, answer.state)
        }
    }
}

/// The first linear sample that no encoder takes, with its place.
pub fn off_scale(speech: &[u8]) -> Option<(usize, i16)> {
    let samples = samples(speech).into_iter().enumerate();
    let mut off = samples.filter(|&(_, sample)| !linear::is_sample(sample));
    off.next()
}

fn samples(speech: &[u8]) -> Vec<i16> {
    let (pairs, _) = speech.as_chunks();
    pairs.iter().map(|&pair| i16::from_le_bytes(pair)).collect()
}

#[cfg(test)]
mod tests {
    use super::*;

    #[test]
    fn the_least_significant_octet_comes_first() {
        assert_eq!(samples(&[0xFF, 0x1F, 0x00, 0xE0]), [8_191, -8_192]);
        let state = State {
            yl: 327_680,
            ..State::reset(2)
        };
        let (number, speech, _) =
            decode(End::Linear, state, &[0x6A, 1, 0x40, 0x80, 0x80, 0x80, 0x80]);
        assert_eq!((number, speech.len()), (0, 16));
        assert_eq!(speech[..2], [0xFF, 0x1F]);
    }

    #[test]
    fn the_first_sample_off_the_scale_is_found() {
        assert_eq!(off_scale(&[0xFF, 0x1F, 0x00, 0xE0]), None);
        let two = [0xFF, 0x1F, 0x00, 0x20, 0xFF, 0xDF];
        assert_eq!(off_scale(&two), Some((1, 8_192)));
        assert_eq!(off_scale(&two[4..]), Some((0, -8_193)));
    }
}
