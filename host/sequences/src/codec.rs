//! Whole lists of values through one end of the second codec, from reset.

use second::g711::Law;
use second::sample;
use second::state::State;

#[derive(Clone, Copy, Debug, PartialEq, Eq)]
pub struct Codec {
    pub law: Law,
    pub width: u8,
    pub core: u8,
}

impl Codec {
    /// The codewords of PCM values, which the homing values precede.
    pub fn encode(&self, homing: &[u8], pcm: &[u8]) -> Vec<u8> {
        let mut state = State::reset(self.core);
        self.send(&mut state, homing);
        self.send(&mut state, pcm)
    }

    /// The PCM values of codewords, which those of the homing values precede, encoded at this law and
    /// pair.
    pub fn decode(&self, homing: &[u8], codewords: &[u8]) -> Vec<u8> {
        let mut state = State::reset(self.core);
        self.receive(&mut state, &self.encode(&[], homing));
        self.receive(&mut state, codewords)
    }

    fn send(&self, state: &mut State, pcm: &[u8]) -> Vec<u8> {
        pcm.iter()
            .map(|&octet| {
                let encoded = sample::encode(state, self.law, self.width, octet);
                *state = encoded.state;
                encoded.codeword
            })
            .collect()
    }

    fn receive(&self, state: &mut State, codewords: &[u8]) -> Vec<u8> {
        codewords
            .iter()
            .map(|&codeword| {
                let decoded = sample::decode(state, self.law, self.width, codeword);
                *state = decoded.state;
                decoded.byte
            })
            .collect()
    }
}
