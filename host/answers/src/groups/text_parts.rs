//! What the groups about texts are made of: calls, and a text or values fed to them line by line, where each line goes on from
//! the answer of the one before.

use super::parts::room;
use crate::call::{Call, Read, Write};
use crate::page::Page;
use second::text::{Reader, Verdict, Writer};

pub fn read(reader: Reader, text: &[u8], values: Vec<u8>) -> Call {
    Call::Read(Read {
        reader,
        text: text.to_vec(),
        values,
    })
}

pub fn write(writer: Writer, values: &[u8], text: Vec<u8>) -> Call {
    Call::Write(Write {
        writer,
        values: values.to_vec(),
        text,
    })
}

/// One piece of a text, handed in again from where it was left until it is taken or refused. Each line asks anew how many octets
/// its buffer has; that may be none, but not for ever.
pub fn feed(
    page: &mut Page,
    first: Reader,
    piece: &[u8],
    mut octets: impl FnMut() -> usize,
) -> Reader {
    let (mut reader, mut rest) = (first, piece);
    loop {
        let buffer = room(octets());
        page.ask(read(reader, rest, buffer.clone()));
        let answer = reader.read(rest, &mut buffer.clone());
        reader = answer.reader;
        rest = &rest[answer.taken..];
        if rest.is_empty() || reader.verdict != Verdict::Sound {
            return reader;
        }
    }
}

/// Values, handed in again from where they were left until all are taken. What is due of their text may still be to come.
pub fn put(
    page: &mut Page,
    first: Writer,
    values: &[u8],
    mut octets: impl FnMut() -> usize,
) -> Writer {
    let (mut writer, mut rest) = (first, values);
    loop {
        let buffer = room(octets());
        page.ask(write(writer, rest, buffer.clone()));
        let answer = writer.write(rest, &mut buffer.clone());
        writer = answer.writer;
        rest = &rest[answer.taken..];
        if rest.is_empty() {
            return writer;
        }
    }
}
