//! The second codec's answers: to one call, and to a text of lines as the proved program gives them.

use crate::call::{Call, Decode, DecodeLinear, Drop, Encode, EncodeLinear, Read, Write};
use crate::fields::{write_octets, write_samples, write_state};
use crate::text_fields::{write_reader, write_word, write_writer};
use second::calls;
use second::g711::{expand, one_down, one_up};

/// The longest line that is read, in characters.
pub const LONGEST: usize = 131_072;

/// Every line with its answer. A comment and an empty line are passed on; for a line that is no call a comment stands.
pub fn answer(asked: &str) -> String {
    if asked.is_empty() {
        return String::new();
    }
    let whole = asked.strip_suffix('\n').unwrap_or(asked);
    let lines = whole.split('\n').zip(1..);
    lines
        .map(|(line, number)| answered_line(line, number) + "\n")
        .collect()
}

fn answered_line(line: &str, number: usize) -> String {
    if line.len() > LONGEST {
        return format!("# line {number}: too long");
    }
    if line.is_empty() || line.starts_with('#') {
        return line.to_string();
    }
    match Call::read(line) {
        Ok(call) => format!("{line} = {}", answer_to(&call)),
        Err(why) => format!("# line {number}: {why}"),
    }
}

/// What stands behind the equals sign.
pub fn answer_to(call: &Call) -> String {
    match call {
        Call::Reset(core) => {
            let a = calls::reset(*core);
            format!("{} {} {}", a.number, a.octets, write_state(&a.state))
        }
        Call::Encode(c) => to_encode(c),
        Call::EncodeLinear(c) => to_encode_linear(c),
        Call::Decode(c) => to_decode(c),
        Call::DecodeLinear(c) => to_decode_linear(c),
        Call::Drop(c) => to_drop(c),
        // EXPAND's level has 14 bits in two's complement.
        Call::Level(law, octet) => {
            let level = expand(*law, *octet).rem_euclid(16_384);
            let (above, below) = (one_up(*law, *octet), one_down(*law, *octet));
            format!("{level} {above} {below}")
        }
        Call::Read(c) => to_read(c),
        Call::EndText(reader) => {
            let verdict = reader.end();
            format!("{} {}", verdict.number(), write_word(verdict.place()))
        }
        Call::Write(c) => to_write(c),
        Call::EndValues(writer) => write_writer(&writer.end()),
    }
}

fn to_encode(c: &Encode) -> String {
    let mut out = c.out.clone();
    let a = calls::encode(c.state, c.law, c.edition, c.width, &c.samples, &mut out);
    let (out, state) = (write_octets(&out), write_state(&a.state));
    format!("{} {} {out} {state}", a.number, a.octets)
}

fn to_encode_linear(c: &EncodeLinear) -> String {
    let mut out = c.out.clone();
    let a = calls::encode_linear(c.state, c.edition, c.width, &c.samples, &mut out);
    let (out, state) = (write_octets(&out), write_state(&a.state));
    format!("{} {} {out} {state}", a.number, a.octets)
}

fn to_decode(c: &Decode) -> String {
    let mut out = c.out.clone();
    let a = calls::decode(c.state, c.law, &c.frame, &mut out);
    let (out, state) = (write_octets(&out), write_state(&a.state));
    format!(
        "{} {} {} {out} {state}",
        a.number, a.octets, a.disagreements
    )
}

fn to_decode_linear(c: &DecodeLinear) -> String {
    let mut out = c.out.clone();
    let a = calls::decode_linear(c.state, &c.frame, &mut out);
    let (out, state) = (write_samples(&out), write_state(&a.state));
    format!(
        "{} {} {} {out} {state}",
        a.number, a.samples, a.disagreements
    )
}

fn to_drop(c: &Drop) -> String {
    let mut out = c.out.clone();
    let a = calls::drop_planes(&c.frame, c.width, &mut out);
    format!("{} {} {}", a.number, a.octets, write_octets(&out))
}

fn to_read(c: &Read) -> String {
    let mut values = c.values.clone();
    let a = c.reader.read(&c.text, &mut values);
    let (values, reader) = (write_octets(&values), write_reader(&a.reader));
    format!("{} {} {values} {reader}", a.taken, a.written)
}

fn to_write(c: &Write) -> String {
    let mut text = c.text.clone();
    let a = c.writer.write(&c.values, &mut text);
    let (text, writer) = (write_octets(&text), write_writer(&a.writer));
    format!("{} {} {text} {writer}", a.taken, a.written)
}

#[cfg(test)]
mod tests {
    use super::*;

    #[test]
    fn lines_in_order_with_what_is_wrong() {
        let long = format!("# {}", "x".repeat(LONGEST - 2));
        let asked = format!("# a\n\nreset 9\nreset\n{long}\n{long}x\nlevel 0 128");
        let due = format!(
            "# a\n\nreset 9 = 1 0 {}\n# line 4: cannot be read: field 2\n{long}\n# line 6: too long\nlevel 0 128 = 8031 128 129\n",
            "544,34816,0,0,0,0,0,0,0,0,0,0,0,32,32,32,32,32,32,32,32,0,0,0,2,0"
        );
        assert!(answer(&asked) == due);
        assert_eq!(answer(""), "");
    }
}
