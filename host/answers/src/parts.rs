//! An answer of the codec taken apart.

use crate::call::Call;
use crate::fields::{octets, octets_of, samples, state};
use second::state::State;

/// What a call's answer does not have is 0, empty or none.
#[derive(Clone, Debug, Default, PartialEq, Eq)]
pub struct Parts {
    pub number: u8,
    /// So many octets, or linear samples where the call counts in them.
    pub written: usize,
    pub disagreements: usize,
    /// The whole buffer as it stands in the line, by octets: a linear sample has two, the most significant first.
    pub out: Vec<u8>,
    pub state: Option<State>,
}

/// What stands behind the equals sign of one of the codec's six public calls.
pub fn parts(call: &Call, answer: &str) -> Result<Parts, String> {
    let told = || format!("cannot be read: {answer}");
    let fields: Vec<&str> = answer.split(' ').collect();
    let read = |out: Option<Vec<u8>>, kept: Option<&str>, disagreements: &str| -> Option<Parts> {
        Some(Parts {
            number: fields.first()?.parse().ok()?,
            written: fields.get(1)?.parse().ok()?,
            disagreements: disagreements.parse().ok()?,
            out: out?,
            state: match kept {
                Some(text) => Some(state(text)?),
                None => None,
            },
        })
    };
    match (call, fields.as_slice()) {
        (Call::Reset(_), [_, _, state]) => read(Some(vec![]), Some(state), "0"),
        (Call::Encode(_) | Call::EncodeLinear(_), [_, _, out, state]) => {
            read(octets(out), Some(state), "0")
        }
        (Call::Decode(_), [_, _, count, out, state]) => read(octets(out), Some(state), count),
        (Call::DecodeLinear(_), [_, _, count, out, state]) => {
            let out = samples(out).map(|samples| octets_of(&samples));
            read(out, Some(state), count)
        }
        (Call::Drop(_), [_, _, out]) => read(octets(out), None, "0"),
        _ => None,
    }
    .ok_or_else(told)
}

impl Parts {
    /// What a linear decoder wrote.
    pub fn samples(&self) -> Vec<i16> {
        let (pairs, _) = self.out.as_chunks();
        let all = pairs.iter().map(|&pair| i16::from_be_bytes(pair));
        all.take(self.written).collect()
    }
}

#[cfg(test)]
mod tests {
    use super::*;

    const STATE: &str = "544,34816,0,0,0,0,0,0,0,0,0,0,0,32,32,32,32,32,32,32,32,0,0,0,2,7";

    #[test]
    fn a_linear_decoder_s_count_is_of_samples() {
        let call = Call::read(&format!("decode_linear {STATE} - -")).unwrap();
        let answer = format!("0 2 0 e0001fff7fff {STATE}");
        let found = parts(&call, &answer).unwrap();
        assert_eq!(found.samples(), [-8_192, 8_191]);
        assert_eq!(found.out.len(), 6);
        for wrong in [
            answer.replace("7fff", "7f"),
            answer.replace("0 2 0", "0 2"),
            answer.replace("0 2 0", "0 x 0"),
        ] {
            assert!(parts(&call, &wrong).is_err(), "{wrong}");
        }
    }
}
