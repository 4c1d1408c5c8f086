//! Which sequences there are, in the order of the lines, and their names (the description,
//! section 5).

use second::g711::Law;

#[derive(Clone, Copy, Debug, PartialEq, Eq)]
pub enum Start {
    Reset,
    Homed,
}

#[derive(Clone, Copy, Debug, PartialEq, Eq)]
pub enum Input {
    Normal,
    Overload,
    Codewords,
    Jump,
    Held,
}

#[derive(Clone, Copy, Debug, PartialEq, Eq)]
pub struct Sequence {
    pub start: Start,
    pub input: Input,
    pub width: u8,
    pub core: u8,
    /// The law before the encoder. Where there is only a decoder, its homing sequence has this law
    /// too.
    pub law_in: Law,
    pub law_out: Law,
}

/// Width and core, in the description's order.
pub const PAIRS: [(u8, u8); 9] = [
    (5, 2),
    (4, 2),
    (3, 2),
    (2, 2),
    (5, 3),
    (4, 3),
    (3, 3),
    (5, 4),
    (4, 4),
];

const SAME: [(Law, Law); 2] = [(Law::Mu, Law::Mu), (Law::A, Law::A)];
const ACROSS: [(Law, Law); 2] = [(Law::Mu, Law::A), (Law::A, Law::Mu)];

impl Input {
    fn laws(self) -> Vec<(Law, Law)> {
        match self {
            Input::Normal | Input::Overload => [SAME, ACROSS].concat(),
            Input::Codewords | Input::Jump => SAME.to_vec(),
            Input::Held => vec![SAME[0]],
        }
    }
}

pub fn all() -> Vec<Sequence> {
    let mut found = Vec::new();
    for start in [Start::Reset, Start::Homed] {
        for input in [Input::Normal, Input::Overload, Input::Codewords] {
            found.extend(of_pairs(start, input, &PAIRS));
        }
    }
    let widest = [(5, 2), (5, 3), (5, 4)];
    found.extend(of_pairs(Start::Reset, Input::Jump, &widest));
    let unenhanced = [(2, 2), (3, 3), (4, 4)];
    found.extend(of_pairs(Start::Reset, Input::Held, &unenhanced));
    found
}

fn of_pairs(start: Start, input: Input, pairs: &[(u8, u8)]) -> Vec<Sequence> {
    let mut found = Vec::new();
    for &(width, core) in pairs {
        for (law_in, law_out) in input.laws() {
            found.push(Sequence {
                start,
                input,
                width,
                core,
                law_in,
                law_out,
            });
        }
    }
    found
}

/// The letter of a law where it is that of both ends.
pub fn letter(law: Law) -> char {
    match law {
        Law::Mu => 'M',
        Law::A => 'A',
    }
}

pub const HOW_NAMES_ARE_MADE: &str =
    "R (from reset) or H (after homing), then N (normal), V (overload) or I (I-input), \
     then x and y of one of the nine pairs, then _, then M (mu), A (A), C (mu to A) or X (A to \
     mu), as RN52_M, but no C or X after I; or else RJ (jumps), then 52, 53 or 54, then _, then M \
     or A; or else HELD22_M, HELD33_M or HELD44_M";

impl Sequence {
    pub fn name(&self) -> String {
        let (width, core) = (self.width, self.core);
        let laws = match (self.law_in, self.law_out) {
            (Law::Mu, Law::A) => 'C',
            (Law::A, Law::Mu) => 'X',
            (law, _) => letter(law),
        };
        let start = match self.start {
            Start::Reset => 'R',
            Start::Homed => 'H',
        };
        match self.input {
            Input::Normal => format!("{start}N{width}{core}_{laws}"),
            Input::Overload => format!("{start}V{width}{core}_{laws}"),
            Input::Codewords => format!("{start}I{width}{core}_{laws}"),
            Input::Jump => format!("{start}J{width}{core}_{laws}"),
            Input::Held => format!("HELD{width}{core}_{laws}"),
        }
    }

    pub fn named(name: &str) -> Option<Sequence> {
        all().into_iter().find(|sequence| sequence.name() == name)
    }
}
