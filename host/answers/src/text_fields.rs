//! The fields of the calls that read and write texts: readers and writers as numbers between commas, of which places and lines
//! are eight octets in hexadecimal digits.

use crate::fields::{number, octets, write_octets};
use second::text::{Reader, Refusal, Refused, Stage, Verdict, Writer};

/// Sixteen digits.
fn word(text: &str) -> Option<u64> {
    let eight: [u8; 8] = octets(text)?.try_into().ok()?;
    Some(u64::from_be_bytes(eight))
}

pub fn write_word(word: u64) -> String {
    write_octets(&word.to_be_bytes())
}

/// By its number and its place, which is 0 where it is sound.
pub fn verdict(number_text: &str, place: &str) -> Option<Verdict> {
    let place = word(place)?;
    match number::<usize>(number_text)? {
        0 => (place == 0).then_some(Verdict::Sound),
        refused => {
            let refusal = *Refusal::ALL.get(refused - 1)?;
            Some(Verdict::Refused(Refused { refusal, place }))
        }
    }
}

pub fn reader(text: &str) -> Option<Reader> {
    let parts: Vec<&str> = text.split(',').collect();
    let [told, place, line, column, high, holds, held, sum] = parts.as_slice() else {
        return None;
    };
    Some(Reader {
        verdict: verdict(told, place)?,
        line: word(line)?,
        column: number(column)?,
        high: number(high)?,
        holds: bit(holds)?,
        held: number(held)?,
        sum: number(sum)?,
    })
}

fn bit(text: &str) -> Option<bool> {
    match text {
        "0" => Some(false),
        "1" => Some(true),
        _ => None,
    }
}

pub fn write_reader(r: &Reader) -> String {
    let (told, place, line) = (
        r.verdict.number(),
        write_word(r.verdict.place()),
        write_word(r.line),
    );
    let (column, high, holds) = (r.column, r.high, u8::from(r.holds));
    format!(
        "{told},{place},{line},{column},{high},{holds},{},{}",
        r.held, r.sum
    )
}

pub fn writer(text: &str) -> Option<Writer> {
    let parts: Vec<&str> = text.split(',').collect();
    let [stage, column, value, sum] = parts.as_slice() else {
        return None;
    };
    Some(Writer {
        stage: *Stage::ALL.get(number::<usize>(stage)?)?,
        column: number(column)?,
        value: number(value)?,
        sum: number(sum)?,
    })
}

pub fn write_writer(w: &Writer) -> String {
    format!("{},{},{},{}", w.stage.number(), w.column, w.value, w.sum)
}

#[cfg(test)]
mod tests {
    use super::*;

    #[test]
    fn a_reader_is_read_as_it_is_written() {
        for text in [
            "0,0000000000000000,0000000000000000,0,0,0,0,0",
            "0,0000000000000000,ffffffffffffffff,255,254,1,253,252",
            "1,0123456789abcdef,fedcba9876543210,1,2,0,3,4",
            "2,0000000000000000,0000000000000001,64,0,0,0,0",
            "3,0000000000000001,0000000000000004,0,0,1,1,0",
            "4,ffffffffffffffff,8000000000000000,0,0,0,0,255",
        ] {
            assert_eq!(write_reader(&reader(text).unwrap()), text);
        }
    }

    #[test]
    fn a_reader_has_one_form() {
        let sound = "0,0000000000000000,0000000000000011,2,3,1,5,6";
        assert!(reader(sound).is_some());
        for (from, to) in [
            ("0,0", "5,0"),
            ("0,0", "00,0"),
            ("0,0", ",0"),
            ("0,0000000000000000", "0,0000000000000001"),
            ("0,0000000000000000", "0,0"),
            ("0,0000000000000000", "0,-"),
            ("0000000000000011", "000000000000011"),
            ("0000000000000011", "00000000000000011"),
            ("0000000000000011", "00000000000000001a"),
            ("0000000000000011", "000000000000001A"),
            (",2,", ",256,"),
            (",3,", ",256,"),
            (",1,", ",2,"),
            (",1,", ",01,"),
            (",5,", ",256,"),
            (",6", ",256"),
            (",6", ""),
            (",6", ",6,0"),
            (",6", ",6,"),
        ] {
            let wrong = sound.replacen(from, to, 1);
            assert_eq!(reader(&wrong), None, "{wrong}");
        }
    }

    #[test]
    fn a_writer_has_one_form() {
        for text in ["0,0,0,0", "1,255,254,253", "2,1,0,255", "3,64,63,62"] {
            assert_eq!(write_writer(&writer(text).unwrap()), text);
        }
        for text in [
            "",
            "-",
            "0,0,0",
            "0,0,0,0,0",
            "4,0,0,0",
            "0,256,0,0",
            "0,0,256,0",
            "0,0,0,256",
            "00,0,0,0",
            "0,0,0,",
            "0 0,0,0",
        ] {
            assert_eq!(writer(text), None, "{text}");
        }
    }
}
