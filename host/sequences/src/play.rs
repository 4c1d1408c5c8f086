//! A sequence played through the second codec, sample by sample.

use crate::codewords;
use crate::files::{Inputs, Kind};
use crate::names::{Input, Sequence, Start};
use second::sample;
use second::state::State;

#[derive(Clone, Copy, Debug, PartialEq, Eq)]
pub struct Sample {
    /// The encoder's input, where there is an encoder.
    pub octet: Option<u8>,
    pub codeword: u8,
    pub byte: u8,
    /// The byte before SYNC.
    pub compressed: u8,
    pub disagrees: bool,
    /// The decoder's state after the sample.
    pub state: State,
}

/// The samples that count, which those of the homing sequence do not.
pub struct Played {
    pub samples: Vec<Sample>,
    /// Whether the encoder, where there is one, ends in the decoder's state.
    pub in_step: bool,
}

struct Ends {
    sequence: Sequence,
    encoder: State,
    decoder: State,
}

impl Ends {
    fn send(&mut self, octet: u8) -> Sample {
        let Sequence { law_in, width, .. } = self.sequence;
        let encoded = sample::encode(&self.encoder, law_in, width, octet);
        self.encoder = encoded.state;
        Sample {
            octet: Some(octet),
            ..self.receive(encoded.codeword)
        }
    }

    fn receive(&mut self, codeword: u8) -> Sample {
        let Sequence { law_out, width, .. } = self.sequence;
        let decoded = sample::decode(&self.decoder, law_out, width, codeword);
        self.decoder = decoded.state;
        Sample {
            octet: None,
            codeword,
            byte: decoded.byte,
            compressed: decoded.compressed,
            disagrees: decoded.disagrees,
            state: decoded.state,
        }
    }
}

/// What goes in: samples for an encoder, or codewords for a decoder alone.
pub enum Fed<'a> {
    Octets(&'a [u8]),
    Codewords(Vec<u8>),
}

pub fn fed<'a>(sequence: &Sequence, inputs: &'a Inputs) -> Fed<'a> {
    let pcm = |kind| Fed::Octets(inputs.octets(kind, sequence.law_in));
    match sequence.input {
        Input::Normal => pcm(Kind::Normal),
        Input::Overload => pcm(Kind::Overload),
        Input::Jump => pcm(Kind::Jump),
        Input::Codewords => Fed::Codewords(codewords::i_input(sequence.width)),
        Input::Held => Fed::Codewords(codewords::held(sequence.width)),
    }
}

pub fn play(sequence: &Sequence, inputs: &Inputs) -> Played {
    let mut ends = started(sequence, inputs);
    match fed(sequence, inputs) {
        Fed::Octets(octets) => sent(&mut ends, octets),
        Fed::Codewords(codewords) => received(&mut ends, codewords),
    }
}

/// Both ends at reset, or after homing. A decoder that will stand alone is homed by an encoder too.
fn started(sequence: &Sequence, inputs: &Inputs) -> Ends {
    let mut ends = Ends {
        sequence: *sequence,
        encoder: State::reset(sequence.core),
        decoder: State::reset(sequence.core),
    };
    if sequence.start == Start::Homed {
        sent(&mut ends, inputs.octets(Kind::Homing, sequence.law_in));
    }
    ends
}

fn sent(ends: &mut Ends, octets: &[u8]) -> Played {
    Played {
        samples: octets.iter().map(|&octet| ends.send(octet)).collect(),
        in_step: ends.encoder == ends.decoder,
    }
}

fn received(ends: &mut Ends, codewords: Vec<u8>) -> Played {
    Played {
        samples: codewords
            .into_iter()
            .map(|codeword| ends.receive(codeword))
            .collect(),
        in_step: true,
    }
}
