//! The files of the description's Tables 4 to 7 and the combined ones of its section 5.2, and what gives
//! each of them.

use second::g711::Law;
use sequences::names::{letter, PAIRS};

/// How many values a homing sequence has (6.4.1).
pub const HOMING: usize = 3_496;

#[derive(Clone, Debug, PartialEq, Eq)]
pub struct Row {
    pub name: String,
    pub run: Run,
    /// Done instead where there is no input for the other.
    pub otherwise: Option<Run>,
    /// How many of its first values are meant, where not all are.
    pub first: Option<usize>,
}

/// What the program is called to do, with files by their names.
#[derive(Clone, Debug, PartialEq, Eq)]
pub struct Run {
    pub words: Vec<String>,
    pub input: String,
    pub homing: Option<String>,
    /// How many of the first values that it gives are left out.
    pub skipped: usize,
}

/// An algorithm, as the description calls it: width and core.
type Pair = (u8, u8);

/// In the order of the tables, each from left to right; the combined ones are last.
pub fn rows() -> Vec<Row> {
    let mut rows = Vec::new();
    for of_pair in [same_law, across_laws, combined] {
        for law in Law::BOTH {
            for pair in PAIRS {
                rows.extend(of_pair(law, pair));
            }
        }
    }
    rows
}

/// A row of Table 4 or 5: one law at both ends.
fn same_law(law: Law, pair: Pair) -> Vec<Row> {
    [
        normal_or_overload('N', law, pair),
        i_input(law, pair),
        normal_or_overload('V', law, pair),
    ]
    .concat()
}

fn normal_or_overload(kind: char, law: Law, pair: Pair) -> Vec<Row> {
    let letter = letter(law);
    let input = pcm_input(kind, law);
    let sent = |start| row(start, kind, pair, letter, 'I', encode(law, pair, &input));
    let received = |start| {
        let codewords = name(start, kind, pair, letter, 'I');
        let run = decode(law, pair, &codewords);
        row(start, kind, pair, letter, 'O', run)
    };
    vec![
        sent('R'),
        homed(sent('H'), law),
        received('R'),
        homed(received('H'), law),
    ]
}

fn i_input(law: Law, pair: Pair) -> Vec<Row> {
    let letter = letter(law);
    let codewords = format!("I{}", 8 * pair.0);
    let alone = |start| {
        let run = decode(law, pair, &codewords);
        row(start, 'I', pair, letter, 'O', run)
    };
    let homed = homed(alone('H'), law);
    let combined = Run {
        skipped: HOMING,
        ..decode(law, pair, &combined_name(law, pair))
    };
    vec![
        alone('R'),
        Row {
            run: combined,
            otherwise: Some(homed.run),
            ..homed
        },
    ]
}

/// A row of Table 6 or 7: codewords of one law are decoded to the other. A decoder is homed by its own
/// law (6.4.2, 6.4.3).
fn across_laws(from: Law, pair: Pair) -> Vec<Row> {
    let (to, laws) = match from {
        Law::Mu => (Law::A, 'C'),
        Law::A => (Law::Mu, 'X'),
    };
    let received = |start, kind| {
        let codewords = name(start, kind, pair, letter(from), 'I');
        row(start, kind, pair, laws, 'O', decode(to, pair, &codewords))
    };
    ['N', 'V']
        .into_iter()
        .flat_map(|kind| [received('R', kind), homed(received('H', kind), to)])
        .collect()
}

/// The codewords of the homing sequence with those of the I-input behind them. Only the former are what
/// an encoder gives.
fn combined(law: Law, pair: Pair) -> Vec<Row> {
    vec![Row {
        name: combined_name(law, pair),
        run: encode(law, pair, &homing_name(law)),
        otherwise: None,
        first: Some(HOMING),
    }]
}

/// R or H; N, V or I; the pair; the laws; I for codewords or O for PCM values.
fn name(start: char, kind: char, (width, core): Pair, laws: char, end: char) -> String {
    format!("{start}{kind}{width}{core}_{laws}.{end}")
}

fn combined_name(law: Law, (width, core): Pair) -> String {
    format!("I_INIT{width}{core}.{}", letter(law))
}

fn homing_name(law: Law) -> String {
    format!("PCM_INIT.{}", letter(law))
}

fn pcm_input(kind: char, law: Law) -> String {
    let stem = if kind == 'N' { "NRM" } else { "OVR" };
    format!("{stem}.{}", letter(law))
}

fn row(start: char, kind: char, pair: Pair, laws: char, end: char, run: Run) -> Row {
    Row {
        name: name(start, kind, pair, laws, end),
        run,
        otherwise: None,
        first: None,
    }
}

/// The same, where the homing sequence of this law goes first.
fn homed(row: Row, law: Law) -> Row {
    Row {
        run: Run {
            homing: Some(homing_name(law)),
            ..row.run
        },
        ..row
    }
}

fn encode(law: Law, pair: Pair, input: &str) -> Run {
    run("encode", law, pair, input)
}

fn decode(law: Law, pair: Pair, input: &str) -> Run {
    run("decode", law, pair, input)
}

fn run(command: &str, law: Law, (width, core): Pair, input: &str) -> Run {
    let law = match law {
        Law::Mu => "mu",
        Law::A => "a",
    };
    let words = [command, law, &width.to_string(), &core.to_string()];
    Run {
        words: words.map(str::to_string).to_vec(),
        input: input.to_string(),
        homing: None,
        skipped: 0,
    }
}

impl Row {
    /// All files that it may need.
    pub fn names(&self) -> Vec<&String> {
        let runs = [Some(&self.run), self.otherwise.as_ref()];
        let of_runs = runs.into_iter().flatten().flat_map(Run::names);
        [&self.name].into_iter().chain(of_runs).collect()
    }
}

impl Run {
    /// The files that it is done with.
    pub fn names(&self) -> Vec<&String> {
        let both = [Some(&self.input), self.homing.as_ref()];
        both.into_iter().flatten().collect()
    }
}
