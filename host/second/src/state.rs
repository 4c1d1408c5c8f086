//! What one end keeps between samples, in the words of the Recommendation's Table 7, and between
//! frames, with the values at reset and the range of each. Fields are wide enough to hold values out of range,
//! because the public calls must be able to refuse them.

use crate::replies::is_core;

#[derive(Clone, Copy, Debug, PartialEq, Eq)]
pub struct State {
    pub yu: u16,
    pub yl: u32,
    pub dms: u16,
    pub dml: u16,
    pub ap: u16,
    pub a1: u16,
    pub a2: u16,
    pub b: [u16; 6],
    pub dq: [u16; 6],
    pub sr1: u16,
    pub sr2: u16,
    pub pk1: u16,
    pub pk2: u16,
    pub td: u16,
    pub core: u8,
    /// The one that the next numbered frame bears.
    pub number: u8,
}

/// The floating point word of +0.
const FLOAT_ZERO: u16 = 32;

const MOST_DQ_EXPONENT: u16 = 14;
const MOST_SR_EXPONENT: u16 = 15;

impl State {
    pub fn reset(core: u8) -> State {
        State {
            yu: 544,
            yl: 34_816,
            dms: 0,
            dml: 0,
            ap: 0,
            a1: 0,
            a2: 0,
            b: [0; 6],
            dq: [FLOAT_ZERO; 6],
            sr1: FLOAT_ZERO,
            sr2: FLOAT_ZERO,
            pk1: 0,
            pk2: 0,
            td: 0,
            core,
            number: 0,
        }
    }

    /// All of them in the order of the table of ranges, as they are written down.
    pub fn numbers(&self) -> Vec<u32> {
        let mut numbers = vec![u32::from(self.yu), self.yl];
        let words = [self.dms, self.dml, self.ap, self.a1, self.a2];
        let last = [self.sr1, self.sr2, self.pk1, self.pk2, self.td];
        let all = words.iter().chain(&self.b).chain(&self.dq).chain(&last);
        numbers.extend(all.map(|&word| u32::from(word)));
        numbers.extend([self.core, self.number].map(u32::from));
        numbers
    }

    /// One test for each row of the table of ranges; A and B may be any word, and the number any
    /// octet.
    pub fn in_range(&self) -> bool {
        (544..=5_120).contains(&self.yu)
            && (34_816..=327_680).contains(&self.yl)
            && self.dms <= 3_584
            && self.dml <= 14_336
            && self.ap <= 512
            && self.dq.iter().all(|&word| is_float(word, MOST_DQ_EXPONENT))
            && is_float(self.sr1, MOST_SR_EXPONENT)
            && is_float(self.sr2, MOST_SR_EXPONENT)
            && [self.pk1, self.pk2, self.td].iter().all(|&bit| bit <= 1)
            && is_core(self.core)
    }
}

/// Eleven bits: a sign, four bits of exponent up to the given one, six of mantissa from 32 up.
fn is_float(word: u16, most_exponent: u16) -> bool {
    let sign_and_exponent = word / 64;
    sign_and_exponent < 32 && sign_and_exponent % 16 <= most_exponent && word % 64 >= 32
}

#[cfg(test)]
mod tests {
    use super::*;

    #[test]
    fn the_numbers_of_a_state_in_order() {
        let state = State {
            yu: 1,
            yl: 2,
            dms: 3,
            dml: 4,
            ap: 5,
            a1: 6,
            a2: 7,
            b: [8, 9, 10, 11, 12, 13],
            dq: [14, 15, 16, 17, 18, 19],
            sr1: 20,
            sr2: 21,
            pk1: 22,
            pk2: 23,
            td: 24,
            core: 25,
            number: 26,
        };
        assert_eq!(state.numbers(), Vec::from_iter(1..=26));
    }
}
