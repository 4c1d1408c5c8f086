//! What the calls with several fields are given, as it stands in a line.

use crate::fields::{number, octets, samples, state, write_octets, write_samples, write_state};
use crate::line::{Fields, Unread};
use crate::text_fields::{reader, write_reader, write_writer, writer};
use second::state::State;
use second::text::{Reader, Writer};
use std::fmt;

#[derive(Clone, Debug, PartialEq, Eq)]
pub struct Encode {
    pub state: State,
    pub law: u8,
    pub edition: u8,
    pub width: u8,
    pub samples: Vec<u8>,
    pub out: Vec<u8>,
}

impl Encode {
    pub fn take(fields: &mut Fields) -> Result<Encode, Unread> {
        Ok(Encode {
            state: fields.take(state)?,
            law: fields.take(number)?,
            edition: fields.take(number)?,
            width: fields.take(number)?,
            samples: fields.take(octets)?,
            out: fields.take(octets)?,
        })
    }
}

impl fmt::Display for Encode {
    fn fmt(&self, f: &mut fmt::Formatter) -> fmt::Result {
        let (samples, out) = (write_octets(&self.samples), write_octets(&self.out));
        let state = write_state(&self.state);
        let (law, edition, width) = (self.law, self.edition, self.width);
        write!(f, "{state} {law} {edition} {width} {samples} {out}")
    }
}

#[derive(Clone, Debug, PartialEq, Eq)]
pub struct Decode {
    pub state: State,
    pub law: u8,
    pub frame: Vec<u8>,
    pub out: Vec<u8>,
}

impl Decode {
    pub fn take(fields: &mut Fields) -> Result<Decode, Unread> {
        Ok(Decode {
            state: fields.take(state)?,
            law: fields.take(number)?,
            frame: fields.take(octets)?,
            out: fields.take(octets)?,
        })
    }
}

impl fmt::Display for Decode {
    fn fmt(&self, f: &mut fmt::Formatter) -> fmt::Result {
        let (frame, out) = (write_octets(&self.frame), write_octets(&self.out));
        write!(f, "{} {} {frame} {out}", write_state(&self.state), self.law)
    }
}

/// As `Encode`, without a law and with linear samples.
#[derive(Clone, Debug, PartialEq, Eq)]
pub struct EncodeLinear {
    pub state: State,
    pub edition: u8,
    pub width: u8,
    pub samples: Vec<i16>,
    pub out: Vec<u8>,
}

impl EncodeLinear {
    pub fn take(fields: &mut Fields) -> Result<EncodeLinear, Unread> {
        Ok(EncodeLinear {
            state: fields.take(state)?,
            edition: fields.take(number)?,
            width: fields.take(number)?,
            samples: fields.take(samples)?,
            out: fields.take(octets)?,
        })
    }
}

impl fmt::Display for EncodeLinear {
    fn fmt(&self, f: &mut fmt::Formatter) -> fmt::Result {
        let (samples, out) = (write_samples(&self.samples), write_octets(&self.out));
        let state = write_state(&self.state);
        write!(f, "{state} {} {} {samples} {out}", self.edition, self.width)
    }
}

/// As `Decode`, without a law and with a buffer of linear samples.
#[derive(Clone, Debug, PartialEq, Eq)]
pub struct DecodeLinear {
    pub state: State,
    pub frame: Vec<u8>,
    pub out: Vec<i16>,
}

impl DecodeLinear {
    pub fn take(fields: &mut Fields) -> Result<DecodeLinear, Unread> {
        Ok(DecodeLinear {
            state: fields.take(state)?,
            frame: fields.take(octets)?,
            out: fields.take(samples)?,
        })
    }
}

impl fmt::Display for DecodeLinear {
    fn fmt(&self, f: &mut fmt::Formatter) -> fmt::Result {
        let (frame, out) = (write_octets(&self.frame), write_samples(&self.out));
        write!(f, "{} {frame} {out}", write_state(&self.state))
    }
}

#[derive(Clone, Debug, PartialEq, Eq)]
pub struct Drop {
    pub frame: Vec<u8>,
    pub width: u8,
    pub out: Vec<u8>,
}

impl Drop {
    pub fn take(fields: &mut Fields) -> Result<Drop, Unread> {
        Ok(Drop {
            frame: fields.take(octets)?,
            width: fields.take(number)?,
            out: fields.take(octets)?,
        })
    }
}

impl fmt::Display for Drop {
    fn fmt(&self, f: &mut fmt::Formatter) -> fmt::Result {
        let (frame, out) = (write_octets(&self.frame), write_octets(&self.out));
        write!(f, "{frame} {} {out}", self.width)
    }
}

/// A piece of a text, and a buffer for its values.
#[derive(Clone, Debug, PartialEq, Eq)]
pub struct Read {
    pub reader: Reader,
    pub text: Vec<u8>,
    pub values: Vec<u8>,
}

impl Read {
    pub fn take(fields: &mut Fields) -> Result<Read, Unread> {
        Ok(Read {
            reader: fields.take(reader)?,
            text: fields.take(octets)?,
            values: fields.take(octets)?,
        })
    }
}

impl fmt::Display for Read {
    fn fmt(&self, f: &mut fmt::Formatter) -> fmt::Result {
        let (text, values) = (write_octets(&self.text), write_octets(&self.values));
        write!(f, "{} {text} {values}", write_reader(&self.reader))
    }
}

/// Some values, and a buffer for their text.
#[derive(Clone, Debug, PartialEq, Eq)]
pub struct Write {
    pub writer: Writer,
    pub values: Vec<u8>,
    pub text: Vec<u8>,
}

impl Write {
    pub fn take(fields: &mut Fields) -> Result<Write, Unread> {
        Ok(Write {
            writer: fields.take(writer)?,
            values: fields.take(octets)?,
            text: fields.take(octets)?,
        })
    }
}

impl fmt::Display for Write {
    fn fmt(&self, f: &mut fmt::Formatter) -> fmt::Result {
        let (values, text) = (write_octets(&self.values), write_octets(&self.text));
        write!(f, "{} {values} {text}", write_writer(&self.writer))
    }
}
