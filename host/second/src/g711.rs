//! G.711 as G.727 uses it: EXPAND (section 6.2.1), COMPRESS and the neighbouring levels of SYNC
//! (6.2.10). EXPAND is computed from segment and step, COMPRESS searches the decision values,
//! so neither can repair a slip of the other.

use crate::float::magnitude;

#[derive(Clone, Copy, Debug, PartialEq, Eq)]
pub enum Law {
    Mu,
    A,
}

impl Law {
    pub const BOTH: [Law; 2] = [Law::Mu, Law::A];

    pub fn from_number(number: u8) -> Option<Law> {
        match number {
            0 => Some(Law::Mu),
            1 => Some(Law::A),
            _ => None,
        }
    }

    pub fn number(self) -> u8 {
        match self {
            Law::Mu => 0,
            Law::A => 1,
        }
    }
}

/// Every second bit of an A-law character signal travels inverted (G.711, Table 1a, note 2).
const A_LAW_INVERSION: u8 = 0x55;
const SIGN: u8 = 0x80;

/// EXPAND: the level of a byte, on the scale where mu-law ends at 8,031 and A-law, doubled, at 8,064.
pub fn expand(law: Law, byte: u8) -> i32 {
    let character = match law {
        Law::Mu => !byte,
        Law::A => byte ^ A_LAW_INVERSION ^ SIGN,
    };
    let segment = i32::from(character >> 4 & 7);
    let step = i32::from(character & 15);
    let size = match law {
        Law::Mu => ((2 * step + 33) << segment) - 33,
        Law::A if segment == 0 => 2 * (2 * step + 1),
        Law::A => 2 * ((2 * step + 33) << (segment - 1)),
    };
    if character & SIGN == 0 {
        size
    } else {
        -size
    }
}

/// A run of equal quantizing intervals: how many there are and how wide each is
/// (columns 1 and 2 of G.711's tables, read from zero outwards).
type Run = (usize, i32);

const MU_RUNS: [Run; 9] = [
    (1, 1),
    (15, 2),
    (16, 4),
    (16, 8),
    (16, 16),
    (16, 32),
    (16, 64),
    (16, 128),
    (16, 256),
];

const A_RUNS: [Run; 7] = [
    (32, 2),
    (16, 4),
    (16, 8),
    (16, 16),
    (16, 32),
    (16, 64),
    (16, 128),
];

/// The 127 decision values between the 128 intervals of one sign. The virtual decision value
/// that closes the last interval is left out: what lies beyond it takes the last character too.
type Decisions = [i32; 127];

const MU_DECISIONS: Decisions = decisions(&MU_RUNS);
const A_DECISIONS: Decisions = decisions(&A_RUNS);

const fn decisions(runs: &[Run]) -> Decisions {
    let mut found = [0; 127];
    let mut run = 0;
    let mut used = 0;
    let mut value = 0;
    let mut place = 0;
    while place < 127 {
        if used == runs[run].0 {
            run += 1;
            used = 0;
        }
        value += runs[run].1;
        found[place] = value;
        used += 1;
        place += 1;
    }
    found
}

/// COMPRESS of a reconstructed signal read as a signed 16-bit number. A magnitude that stands
/// exactly on a decision value goes outwards, but for A-law's negative half, where it stays
/// inside (Recommendation, Table 16).
pub fn compress(law: Law, level: i32) -> u8 {
    let negative = level < 0;
    let im = magnitude(level);
    match law {
        Law::Mu => {
            let interval = MU_DECISIONS.partition_point(|&decision| decision <= im) as u8;
            (if negative { 0x7F } else { 0xFF }) - interval
        }
        Law::A if negative => {
            let imag = (im + 1) / 2;
            let interval = A_DECISIONS.partition_point(|&decision| decision < imag) as u8;
            interval ^ A_LAW_INVERSION
        }
        Law::A => {
            let imag = im / 2;
            let interval = A_DECISIONS.partition_point(|&decision| decision <= imag) as u8;
            (SIGN | interval) ^ A_LAW_INVERSION
        }
    }
}

const TOP_RUNG: i32 = 127;

/// The place of a byte on its law's ladder of levels. Both zeros of mu-law stand on rung 0;
/// A-law has no zero and begins with 0 above and -1 below.
fn rung(law: Law, byte: u8) -> i32 {
    match law {
        Law::Mu if byte & SIGN != 0 => 0xFF - i32::from(byte),
        Law::Mu => i32::from(byte) - 0x7F,
        Law::A => {
            let character = i32::from(byte ^ A_LAW_INVERSION);
            if character >= 0x80 {
                character - 0x80
            } else {
                -1 - character
            }
        }
    }
}

fn bottom_rung(law: Law) -> i32 {
    match law {
        Law::Mu => -127,
        Law::A => -128,
    }
}

/// The byte on a rung. Mu-law's zero is met from below as 7F and from above as FF (Table 21).
fn byte_on(law: Law, rung: i32, met_from_below: bool) -> u8 {
    let byte = match law {
        Law::Mu if rung < 0 || (rung == 0 && met_from_below) => 0x7F + rung,
        Law::Mu => 0xFF - rung,
        Law::A if rung < 0 => (-1 - rung) ^ i32::from(A_LAW_INVERSION),
        Law::A => (0x80 + rung) ^ i32::from(A_LAW_INVERSION),
    };
    byte as u8
}

/// SP+ of SYNC: the next more positive level, or the byte itself at the top.
pub fn one_up(law: Law, byte: u8) -> u8 {
    let target = (rung(law, byte) + 1).min(TOP_RUNG);
    byte_on(law, target, true)
}

/// SP- of SYNC: the next more negative level, or the byte itself at the bottom.
pub fn one_down(law: Law, byte: u8) -> u8 {
    let target = (rung(law, byte) - 1).max(bottom_rung(law));
    byte_on(law, target, false)
}
