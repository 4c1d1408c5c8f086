//! What the rules (docs/RULES.md) say of a call's answer, whoever gives it. A refusal they say whole; a success in part.

use crate::call::Call;
use crate::fields::{octets_of, write_octets, write_state};
use crate::parts::{parts, Parts};
use crate::rows::due_reply;
use crate::text_due;
use second::state::State;
use second::text::Verdict;

#[derive(Clone, Debug)]
pub enum Due {
    /// Nothing but what holds of every answer.
    Open,
    Refused(u8),
    /// Done, with so many octets, or linear samples where the call counts in them.
    Done(usize),
    /// Done, and the buffer begins with these octets.
    Out(Vec<u8>),
    /// Done, and the frame's first codeword, of five bits, is this.
    First(u8),
    /// Done, and the first linear sample is this.
    FirstSample(i16),
    /// EXPAND's word, the octet above and the octet below, where the rules have them.
    Level(Option<u16>, Option<u8>, Option<u8>),
    /// So many characters are taken, and these values are handed out.
    Read(usize, Vec<u8>),
    Verdict(Verdict),
    /// So many values are taken, and these characters are written.
    Written(usize, Vec<u8>),
}

impl Due {
    /// Whether the answer is as it has to be, and else what is wrong with it.
    pub fn hold(&self, call: &Call, answer: &str) -> Result<(), String> {
        match call {
            Call::Level(..) => return self.hold_level(answer),
            _ if !call.is_of_codec() => return text_due::hold(self, call, answer),
            _ => {}
        }
        let found = parts(call, answer)?;
        hold_always(call, &found)?;
        match self {
            Due::Refused(number) => same("number", &found.number, number),
            Due::Done(count) => {
                same("number", &found.number, &0)?;
                same("written", &found.written, count)
            }
            Due::Out(octets) => {
                same("number", &found.number, &0)?;
                same("octets", &&found.out[..found.written], &octets.as_slice())
            }
            Due::First(codeword) => {
                same("number", &found.number, &0)?;
                same("first codeword", &first_codeword(&found.out), codeword)
            }
            Due::FirstSample(sample) => {
                same("number", &found.number, &0)?;
                same("first sample", &found.samples().first(), &Some(sample))
            }
            _ => Ok(()),
        }
    }

    fn hold_level(&self, answer: &str) -> Result<(), String> {
        let Due::Level(level, above, below) = self else {
            return Ok(());
        };
        let due = [*level, above.map(u16::from), below.map(u16::from)];
        for (found, due) in answer.split(' ').zip(due) {
            let due = due.map_or(found.to_string(), |number| number.to_string());
            same("level", &found, &due.as_str())?;
        }
        Ok(())
    }
}

/// Of a frame of one group at width 5: the first sample has the highest bit of each plane.
fn first_codeword(frame: &[u8]) -> u8 {
    frame[2..7]
        .iter()
        .fold(0, |bits, octet| 2 * bits + octet / 128)
}

pub fn same<T: PartialEq + std::fmt::Debug>(what: &str, found: &T, due: &T) -> Result<(), String> {
    if found == due {
        return Ok(());
    }
    Err(format!("{what} {found:?}, where {due:?} is due"))
}

/// What the rules say of every answer: its number is that of the first row that applies; a refusal reports nothing, writes nothing and keeps the state; a success writes as much
/// as the call's own form says, and the buffer beyond it stays.
fn hold_always(call: &Call, found: &Parts) -> Result<(), String> {
    same("number", &Some(found.number), &due_reply(call))?;
    let (out, kept) = handed_in(call);
    let written = if found.number == 0 {
        due_written(call)
    } else {
        0
    };
    same("written", &found.written, &written)?;
    same("length of out", &found.out.len(), &out.len())?;
    let end = written * octets_of_each(call);
    at_most("octets", end, out.len())?;
    let beyond = |octets: &[u8]| write_octets(&octets[end..]);
    same("out beyond the octets", &beyond(&found.out), &beyond(&out))?;
    if found.number == 0 {
        hold_header(call, &found.out)?;
        hold_number(call, found.state)?;
        return hold_samples(call, found);
    }
    same("disagreements", &found.disagreements, &0)?;
    let texts = [found.state, kept].map(|state| state.map(|s| write_state(&s)));
    match kept {
        Some(_) => same("state", &texts[0], &texts[1]),
        None => Ok(()),
    }
}

pub fn at_most(what: &str, found: usize, most: usize) -> Result<(), String> {
    if found <= most {
        return Ok(());
    }
    Err(format!("{what} {found}, where {most} is the most"))
}

/// The buffer, by octets, and the state that the call is given.
fn handed_in(call: &Call) -> (Vec<u8>, Option<State>) {
    match call {
        Call::Encode(c) => (c.out.clone(), Some(c.state)),
        Call::EncodeLinear(c) => (c.out.clone(), Some(c.state)),
        Call::Decode(c) => (c.out.clone(), Some(c.state)),
        Call::DecodeLinear(c) => (octets_of(&c.out), Some(c.state)),
        Call::Drop(c) => (c.out.clone(), None),
        _ => (Vec::new(), None),
    }
}

/// How many octets each of those has that the call counts.
fn octets_of_each(call: &Call) -> usize {
    match call {
        Call::DecodeLinear(_) => 2,
        _ => 1,
    }
}

/// How much a success writes, by the lengths of what is handed in.
fn due_written(call: &Call) -> usize {
    let header = due_header(call);
    match (received(call), header.as_slice()) {
        (Some((_, frame)), _) => 8 * usize::from(frame[1]),
        (None, [first, groups, ..]) => {
            header.len() + usize::from(first / 8 % 8) * usize::from(*groups)
        }
        _ => 0,
    }
}

/// The state and the frame that a decoder is given.
fn received(call: &Call) -> Option<(&State, &[u8])> {
    match call {
        Call::Decode(c) => Some((&c.state, &c.frame)),
        Call::DecodeLinear(c) => Some((&c.state, &c.frame)),
        _ => None,
    }
}

/// The header of the frame that a success writes; nothing where it writes none.
fn due_header(call: &Call) -> Vec<u8> {
    let header = |edition: u8, width: u8, core: u8, groups: u8, number: u8| {
        let first = 64 * u32::from(edition) + 8 * u32::from(width) + u32::from(core);
        match edition {
            2 => vec![first as u8, groups, number],
            _ => vec![first as u8, groups],
        }
    };
    let asked = |state: &State, edition: u8, width: u8, samples: usize| {
        let groups = (samples / 8) as u8;
        header(edition, width, state.core, groups, state.number)
    };
    match call {
        Call::Encode(c) => asked(&c.state, c.edition, c.width, c.samples.len()),
        Call::EncodeLinear(c) => asked(&c.state, c.edition, c.width, c.samples.len()),
        Call::Drop(c) => match c.frame.as_slice() {
            [first, groups, third, ..] => header(first >> 6, c.width, first & 7, *groups, *third),
            _ => Vec::new(),
        },
        _ => Vec::new(),
    }
}

fn hold_header(call: &Call, out: &[u8]) -> Result<(), String> {
    let due = due_header(call);
    same("header", &&out[..due.len()], &due.as_slice())
}

/// A success in edition 2 moves the number on, and one in edition 1 leaves it.
fn hold_number(call: &Call, found: Option<State>) -> Result<(), String> {
    let (edition, given) = match (call, received(call)) {
        (_, Some((state, frame))) => (frame[0] >> 6, state.number),
        (Call::Encode(c), _) => (c.edition, c.state.number),
        (Call::EncodeLinear(c), _) => (c.edition, c.state.number),
        _ => return Ok(()),
    };
    let due = match (edition, given) {
        (2, 255) => 0,
        (2, number) => number + 1,
        (_, number) => number,
    };
    same("next number", &found.map(|state| state.number), &Some(due))
}

/// At most every sample disagrees. A linear decoder adjusts none and counts none, and gives none that is off the scale.
fn hold_samples(call: &Call, found: &Parts) -> Result<(), String> {
    let Call::DecodeLinear(_) = call else {
        return at_most("disagreements", found.disagreements, found.written);
    };
    same("disagreements", &found.disagreements, &0)?;
    let samples = found.samples();
    let off_scale = samples.iter().find(|s| !(-8_192..=8_191).contains(*s));
    same("a sample off the scale", &off_scale, &None)
}
