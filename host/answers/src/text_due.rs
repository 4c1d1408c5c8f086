//! What holds of every answer to a call that reads or writes a text, whoever gives it, and what a group says is due.

use crate::call::{Call, Read, Write};
use crate::due::{at_most, same, Due};
use crate::fields::{number, octets, write_octets};
use crate::text_fields::{reader, verdict, writer};
use second::text::{Reader, Refusal, Stage, Verdict, Writer};

/// An answer to `read` or `write` taken apart: the buffer is whole, as the call left it.
#[derive(Clone, Debug, PartialEq, Eq)]
pub struct Moved<T> {
    pub taken: usize,
    pub written: usize,
    pub buffer: Vec<u8>,
    pub next: T,
}

impl<T> Moved<T> {
    pub fn made(&self) -> &[u8] {
        &self.buffer[..self.written]
    }
}

fn moved<T>(answer: &str, next: impl Fn(&str) -> Option<T>) -> Result<Moved<T>, String> {
    let fields: Vec<&str> = answer.split(' ').collect();
    let read = || match fields.as_slice() {
        [taken, written, buffer, last] => Some(Moved {
            taken: number(taken)?,
            written: number(written)?,
            buffer: octets(buffer)?,
            next: next(last)?,
        }),
        _ => None,
    };
    read().ok_or_else(|| format!("cannot be read: {answer}"))
}

pub fn read_parts(answer: &str) -> Result<Moved<Reader>, String> {
    moved(answer, reader)
}

pub fn write_parts(answer: &str) -> Result<Moved<Writer>, String> {
    moved(answer, writer)
}

pub fn verdict_part(answer: &str) -> Result<Verdict, String> {
    let told = || format!("cannot be read: {answer}");
    let (number, place) = answer.split_once(' ').ok_or_else(told)?;
    verdict(number, place).ok_or_else(told)
}

pub fn hold(due: &Due, call: &Call, answer: &str) -> Result<(), String> {
    match call {
        Call::Read(c) => hold_read(due, c, &read_parts(answer)?),
        Call::EndText(reader) => hold_verdict(due, reader, verdict_part(answer)?),
        Call::Write(c) => hold_write(due, c, &write_parts(answer)?),
        Call::EndValues(before) => {
            let after = writer(answer).ok_or_else(|| format!("cannot be read: {answer}"))?;
            hold_closing(before, &after)
        }
        _ => Ok(()),
    }
}

/// No more is taken than there is, no more written than there is room, and the rest of the buffer stays.
fn hold_bounds<T>(found: &Moved<T>, given: &[u8], buffer: &[u8]) -> Result<(), String> {
    at_most("taken", found.taken, given.len())?;
    at_most("written", found.written, buffer.len())?;
    same("length of the buffer", &found.buffer.len(), &buffer.len())?;
    let beyond = |octets: &[u8]| write_octets(&octets[found.written..]);
    same("the rest", &beyond(&found.buffer), &beyond(buffer))
}

fn hold_read(due: &Due, c: &Read, found: &Moved<Reader>) -> Result<(), String> {
    hold_bounds(found, &c.text, &c.values)?;
    let next = &found.next;
    match (c.reader.verdict, next.verdict) {
        (Verdict::Refused(_), _) => {
            same("reader", next, &c.reader)?;
            same("moved", &(found.taken, found.written), &(0, 0))?;
        }
        (Verdict::Sound, Verdict::Refused(refused)) => {
            let character = c.text.get(found.taken).ok_or("refused behind the text")?;
            let refusal = match character.is_ascii_hexdigit() {
                true => Refusal::LineTooLong,
                false => Refusal::BadCharacter,
            };
            let place = next.line.wrapping_add(u64::from(next.column));
            same("refused", &refused, &refusal.at(place))?;
        }
        (Verdict::Sound, Verdict::Sound) => {
            let full = found.written == c.values.len();
            let stopped = found.taken == c.text.len() || full;
            same("stopped for a reason", &stopped, &true)?;
        }
    }
    match due {
        Due::Read(taken, values) => {
            same("taken", &found.taken, taken)?;
            same("values", &found.made(), &values.as_slice())
        }
        _ => Ok(()),
    }
}

fn hold_verdict(due: &Due, reader: &Reader, found: Verdict) -> Result<(), String> {
    if reader.verdict != Verdict::Sound {
        same("verdict", &found, &reader.verdict)?;
    }
    match due {
        Due::Verdict(verdict) => same("verdict", &found, verdict),
        _ => Ok(()),
    }
}

fn hold_write(due: &Due, c: &Write, found: &Moved<Writer>) -> Result<(), String> {
    hold_bounds(found, &c.values, &c.text)?;
    let digit = |octet: &u8| octet.is_ascii_digit() || (b'A'..=b'F').contains(octet);
    let characters = found.made().iter().all(|o| digit(o) || *o == b'\n');
    same("characters of a text", &characters, &true)?;
    let waits = found.next.stage == Stage::Values && found.taken == c.values.len();
    let full = found.written == c.text.len();
    let stopped = full || waits || found.next.stage == Stage::Done;
    same("stopped for a reason", &stopped, &true)?;
    match due {
        Due::Written(taken, text) => {
            same("taken", &found.taken, taken)?;
            same("text", &found.made(), &text.as_slice())
        }
        _ => Ok(()),
    }
}

fn hold_closing(before: &Writer, after: &Writer) -> Result<(), String> {
    let stage = match before.stage {
        Stage::Values => Stage::Closing,
        other => other,
    };
    same("writer", after, &Writer { stage, ..*before })
}
