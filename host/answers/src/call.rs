//! A call as a line has it: its word and its fields.

use crate::fields::number;
use crate::line::{Fields, Unread};
use crate::text_fields::{reader, write_reader, write_writer, writer};
use second::g711::Law;
use second::text::{Reader, Writer};
use std::fmt;

pub use crate::given::{Decode, DecodeLinear, Drop, Encode, EncodeLinear, Read, Write};

#[derive(Clone, Debug, PartialEq, Eq)]
pub enum Call {
    Reset(u8),
    Encode(Encode),
    EncodeLinear(EncodeLinear),
    Decode(Decode),
    DecodeLinear(DecodeLinear),
    Drop(Drop),
    /// No public call: EXPAND of an octet, and its neighbours.
    Level(Law, u8),
    Read(Read),
    EndText(Reader),
    Write(Write),
    EndValues(Writer),
}

fn law(text: &str) -> Option<Law> {
    number(text).and_then(Law::from_number)
}

impl Call {
    pub fn read(line: &str) -> Result<Call, Unread> {
        let (word, mut fields) = Fields::of(line);
        let call = Call::take(word, &mut fields)?;
        fields.end()?;
        Ok(call)
    }

    fn take(word: &str, fields: &mut Fields) -> Result<Call, Unread> {
        Ok(match word {
            "reset" => Call::Reset(fields.take(number)?),
            "encode" => Call::Encode(Encode::take(fields)?),
            "encode_linear" => Call::EncodeLinear(EncodeLinear::take(fields)?),
            "decode" => Call::Decode(Decode::take(fields)?),
            "decode_linear" => Call::DecodeLinear(DecodeLinear::take(fields)?),
            "drop" => Call::Drop(Drop::take(fields)?),
            "level" => Call::Level(fields.take(law)?, fields.take(number)?),
            "read" => Call::Read(Read::take(fields)?),
            "end_text" => Call::EndText(fields.take(reader)?),
            "write" => Call::Write(Write::take(fields)?),
            "end_values" => Call::EndValues(fields.take(writer)?),
            _ => return Err(Unread::NoSuchCall),
        })
    }

    /// Whether it is one of the codec's six public calls.
    pub fn is_of_codec(&self) -> bool {
        match self {
            Call::Reset(_) | Call::Drop(_) => true,
            Call::Encode(_) | Call::EncodeLinear(_) => true,
            Call::Decode(_) | Call::DecodeLinear(_) => true,
            Call::Level(..) => false,
            Call::Read(_) | Call::EndText(_) | Call::Write(_) | Call::EndValues(_) => false,
        }
    }

    /// The call's word.
    pub fn word(&self) -> &'static str {
        match self {
            Call::Reset(_) => "reset",
            Call::Encode(_) => "encode",
            Call::EncodeLinear(_) => "encode_linear",
            Call::Decode(_) => "decode",
            Call::DecodeLinear(_) => "decode_linear",
            Call::Drop(_) => "drop",
            Call::Level(..) => "level",
            Call::Read(_) => "read",
            Call::EndText(_) => "end_text",
            Call::Write(_) => "write",
            Call::EndValues(_) => "end_values",
        }
    }
}

impl fmt::Display for Call {
    fn fmt(&self, f: &mut fmt::Formatter) -> fmt::Result {
        write!(f, "{} ", self.word())?;
        match self {
            Call::Reset(core) => write!(f, "{core}"),
            Call::Encode(given) => given.fmt(f),
            Call::EncodeLinear(given) => given.fmt(f),
            Call::Decode(given) => given.fmt(f),
            Call::DecodeLinear(given) => given.fmt(f),
            Call::Drop(given) => given.fmt(f),
            Call::Level(law, octet) => write!(f, "{} {octet}", law.number()),
            Call::Read(given) => given.fmt(f),
            Call::EndText(reader) => f.write_str(&write_reader(reader)),
            Call::Write(given) => given.fmt(f),
            Call::EndValues(writer) => f.write_str(&write_writer(writer)),
        }
    }
}

#[cfg(test)]
mod tests {
    use super::*;

    const STATE: &str = "544,34816,0,0,0,0,0,0,0,0,0,0,0,32,32,32,32,32,32,32,32,0,0,0,2,7";
    const READER: &str = "1,0000000000000003,0000000000000000,2,1,1,18,0";

    #[test]
    fn a_call_is_read_as_it_is_written() {
        for line in [
            "reset 255".to_string(),
            format!("encode {STATE} 0 2 5 ff00 -"),
            format!("encode_linear {STATE} 1 255 e0001fff ee"),
            format!("decode {STATE} 255 - 00"),
            format!("decode_linear {STATE} 5201ff00 0000ffff"),
            "drop 6a01 3 000000".to_string(),
            "level 1 213".to_string(),
            format!("read {READER} 30310a ee"),
            format!("end_text {READER}"),
            "write 0,2,1,1 ff -".to_string(),
            "end_values 3,255,0,254".to_string(),
        ] {
            assert_eq!(Call::read(&line).unwrap().to_string(), line);
        }
    }

    #[test]
    fn the_first_wrong_field_is_told() {
        for (line, wrong) in [
            ("", Unread::NoSuchCall),
            ("Reset 2", Unread::NoSuchCall),
            (" reset 2", Unread::NoSuchCall),
            ("reset", Unread::Field(2)),
            ("reset ", Unread::Field(2)),
            ("reset  2", Unread::Field(2)),
            ("reset 256", Unread::Field(2)),
            ("reset 2 ", Unread::TooMany(3)),
            ("reset 2 2", Unread::TooMany(3)),
            ("drop 6a01 3", Unread::Field(4)),
            ("drop 6A01 3 -", Unread::Field(2)),
            ("drop 6a0 x -", Unread::Field(2)),
            ("encode_linear", Unread::Field(2)),
            ("encode_linear 2", Unread::Field(2)),
            ("decode_linear 2", Unread::Field(2)),
            ("encodelinear 2", Unread::NoSuchCall),
            ("level 2 0", Unread::Field(2)),
            ("read 0 30 -", Unread::Field(2)),
            ("end_text", Unread::Field(2)),
            ("endtext 0", Unread::NoSuchCall),
            ("write 0,0,0,0 0 -", Unread::Field(3)),
            ("write 0,0,0,0 00", Unread::Field(4)),
            ("end_values 0,0,0,0 0", Unread::TooMany(3)),
            ("end_values 4,0,0,0", Unread::Field(2)),
        ] {
            assert_eq!(Call::read(line), Err(wrong), "{line}");
        }
    }

    #[test]
    fn a_linear_sample_has_four_digits() {
        for (fields, wrong) in [
            ("1 5 00 -", Unread::Field(5)),
            ("1 5 0000e0 -", Unread::Field(5)),
            ("1 5 E000 -", Unread::Field(5)),
            ("1 5 - 0", Unread::Field(6)),
            ("1 5 -", Unread::Field(6)),
            ("1 5 - - -", Unread::TooMany(7)),
        ] {
            let line = format!("encode_linear {STATE} {fields}");
            assert_eq!(Call::read(&line), Err(wrong), "{line}");
        }
        for (fields, wrong) in [
            ("0 -", Unread::Field(3)),
            ("- 00", Unread::Field(4)),
            ("- 000000", Unread::Field(4)),
            ("- - -", Unread::TooMany(5)),
        ] {
            let line = format!("decode_linear {STATE} {fields}");
            assert_eq!(Call::read(&line), Err(wrong), "{line}");
        }
    }
}
