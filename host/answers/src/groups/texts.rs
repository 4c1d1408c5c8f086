//! Texts worked by hand, each read at once with more room than it needs, and ended: every row of the table of refusals, at its
//! edges.

use super::parts::room;
use super::text_parts::read;
use crate::call::Call;
use crate::due::Due;
use crate::page::Page;
use second::text::Refusal::{self, BadCharacter, LineTooLong, MissingRemainder, WrongRemainder};
use second::text::{Reader, Verdict};

pub fn texts(page: &mut Page) {
    page.group(
        "texts",
        "worked texts, each read at once and ended: good ones, and every refusal at its edges",
    );
    good(page);
    sums(page);
    for octet in *b"/:@G`g \t\r\0\x7f\x80\x8a\xb0\xff" {
        bad_character(page, octet);
    }
    line_feeds(page);
    full_lines(page);
    long_lines(page);
    wrong_remainders(page);
    missing_remainders(page);
    later_lines(page);
}

/// What is taken ends at a character that is refused.
fn worked(page: &mut Page, text: &[u8], values: &[u8], verdict: Verdict) {
    let taken = match verdict {
        Verdict::Refused(at) if matches!(at.refusal, BadCharacter | LineTooLong) => {
            at.place as usize
        }
        _ => text.len(),
    };
    let mut buffer = room(values.len() + 3);
    let call = read(Reader::default(), text, buffer.clone());
    page.due(Due::Read(taken, values.to_vec()), call);
    let reader = Reader::default().read(text, &mut buffer).reader;
    page.due(Due::Verdict(verdict), Call::EndText(reader));
}

fn sound(page: &mut Page, text: impl AsRef<[u8]>, values: &[u8]) {
    worked(page, text.as_ref(), values, Verdict::Sound);
}

fn refused(page: &mut Page, text: impl AsRef<[u8]>, values: &[u8], refusal: Refusal, place: usize) {
    let verdict = Verdict::Refused(refusal.at(place as u64));
    worked(page, text.as_ref(), values, verdict);
}

fn good(page: &mut Page) {
    sound(page, "00\n", &[]);
    sound(page, "01\n01\n", &[1]);
    sound(page, "0102\n03\n", &[1, 2]);
    sound(page, "01\n02\n03\n", &[1, 2]);
    sound(page, "00\n00\n", &[0]);
    sound(page, "000000\n00\n00\n00\n", &[0; 5]);
    let digits = [0x01, 0x23, 0x45, 0x67, 0x89, 0xAB, 0xCD, 0xEF];
    // They sum to 960, and 960 less three times 255 is 195.
    for text in [
        "0123456789ABCDEF\nC3\n",
        "0123456789abcdef\nc3\n",
        "0123456789aBcDEf\nc3\n",
        "0123456789AbCdeF\nC3\n",
        "0123\n456789ab\nCDEF\nC3\n",
    ] {
        sound(page, text, &digits);
    }
}

/// A sum of 255 leaves 00, and FF is never right.
fn sums(page: &mut Page) {
    for (line, values, remainder) in [
        ("FE", [254].as_slice(), "FE"),
        ("FF", &[255], "00"),
        ("FF01", &[255, 1], "01"),
        ("FEFF", &[254, 255], "FE"),
        ("FFFF", &[255, 255], "00"),
        ("FFFF01", &[255, 255, 1], "01"),
    ] {
        for last in ["00", "01", "FE", "FF", "fe", "ff"] {
            let text = format!("{line}\n{last}\n");
            if last.eq_ignore_ascii_case(remainder) {
                sound(page, text, values);
            } else {
                refused(page, text, values, WrongRemainder, line.len() + 1);
            }
        }
    }
}

/// In every place that a short text has for it. Behind the first value of a line this value is held back.
fn bad_character(page: &mut Page, octet: u8) {
    for (front, values) in [
        ("", [].as_slice()),
        ("0", &[]),
        ("01", &[]),
        ("010", &[1]),
        ("0102", &[1, 2]),
        ("01\n", &[]),
        ("01\n0", &[1]),
        ("0102\n", &[1, 2]),
    ] {
        let text = [front.as_bytes(), &[octet], b"\n"].concat();
        refused(page, text, values, BadCharacter, front.len());
    }
}

fn line_feeds(page: &mut Page) {
    refused(page, "\n", &[], BadCharacter, 0);
    refused(page, "\n00\n", &[], BadCharacter, 0);
    refused(page, "00\n\n", &[], BadCharacter, 3);
    refused(page, "0102\n\n03\n", &[1, 2], BadCharacter, 5);
    refused(page, "0\n", &[], BadCharacter, 1);
    refused(page, "010\n01\n", &[1], BadCharacter, 3);
    refused(page, "01\n0\n", &[1], BadCharacter, 4);
    refused(page, "01\n0\n\n", &[1], BadCharacter, 4);
    refused(page, "00\r\n", &[], BadCharacter, 2);
}

fn ones(digits: usize) -> String {
    "01".repeat(digits.div_ceil(2))[..digits].to_string()
}

/// 31, 32, 33, 64 and 65 values of 01, as a writer makes lines of them and with a value alone.
fn full_lines(page: &mut Page) {
    let (fewer, line) = (ones(62), ones(64));
    sound(page, format!("{fewer}\n1F\n"), &[1; 31]);
    sound(page, format!("{line}\n20\n"), &[1; 32]);
    sound(page, format!("{line}\n01\n21\n"), &[1; 33]);
    sound(page, format!("01\n{line}\n21\n"), &[1; 33]);
    sound(page, format!("{line}\n{line}\n40\n"), &[1; 64]);
    sound(page, format!("{line}\n{line}\n01\n41\n"), &[1; 65]);
}

/// 63, 64 and 65 characters of a line, and what may follow them.
fn long_lines(page: &mut Page) {
    let line = ones(64);
    refused(page, ones(63), &[1; 31], MissingRemainder, 0);
    refused(page, ones(63) + "\n", &[1; 31], BadCharacter, 63);
    refused(page, ones(63) + "G", &[1; 31], BadCharacter, 63);
    refused(page, &line, &[1; 32], MissingRemainder, 0);
    refused(page, format!("{line}\n"), &[1; 32], MissingRemainder, 65);
    for next in ["G", " ", "\r\n"] {
        refused(page, format!("{line}{next}"), &[1; 32], BadCharacter, 64);
    }
    for next in ["0", "9", "A", "F", "a", "f", "0\n", "01\n", "01G"] {
        refused(page, format!("{line}{next}"), &[1; 32], LineTooLong, 64);
    }
    refused(page, format!("01\n{line}0"), &[1; 33], LineTooLong, 67);
    refused(page, format!("{line}\n{line}0"), &[1; 64], LineTooLong, 129);
}

fn wrong_remainders(page: &mut Page) {
    for text in ["01\n", "FF\n", "ff\n", "80\n"] {
        refused(page, text, &[], WrongRemainder, 0);
    }
    refused(page, "01\n02\n", &[1], WrongRemainder, 3);
    refused(page, "01\n00\n", &[1], WrongRemainder, 3);
    refused(page, "0102\n04\n", &[1, 2], WrongRemainder, 5);
    refused(page, "0102\n02\n", &[1, 2], WrongRemainder, 5);
    refused(page, "01\n02\n03\n03\n", &[1, 2, 3], WrongRemainder, 9);
    let line = ones(64);
    refused(page, format!("{line}\n1F\n"), &[1; 32], WrongRemainder, 65);
}

fn missing_remainders(page: &mut Page) {
    for text in ["", "0", "00"] {
        refused(page, text, &[], MissingRemainder, 0);
    }
    refused(page, "010", &[1], MissingRemainder, 0);
    refused(page, "0102", &[1, 2], MissingRemainder, 0);
    for text in ["0102\n", "0102\n0", "0102\n03"] {
        refused(page, text, &[1, 2], MissingRemainder, 5);
    }
    refused(page, "0102\n030", &[1, 2, 3], MissingRemainder, 5);
    refused(page, "01\n01", &[1], MissingRemainder, 3);
    refused(page, "01\n0102\n", &[1, 1, 2], MissingRemainder, 8);
    refused(
        page,
        "0102\n03\n0405\n",
        &[1, 2, 3, 4, 5],
        MissingRemainder,
        13,
    );
}

/// A wrong character is told before anything about a remainder, and the place counts all lines.
fn later_lines(page: &mut Page) {
    refused(page, "01\n05\nG", &[1], BadCharacter, 6);
    refused(page, "01\n05\n\n", &[1], BadCharacter, 6);
    refused(page, "01\n05\n0G", &[1, 5], BadCharacter, 7);
    refused(page, "01\n05\n06\n0C", &[1, 5, 6], MissingRemainder, 9);
    let lines = format!("{}\n", ones(64)).repeat(4);
    let values = [1; 128];
    sound(page, format!("{lines}80\n"), &values);
    refused(page, format!("{lines}81\n"), &values, WrongRemainder, 260);
    refused(page, format!("{lines}80"), &values, MissingRemainder, 260);
    refused(page, format!("{lines}80\n\n"), &values, BadCharacter, 263);
    refused(page, format!("{lines}8 \n"), &values, BadCharacter, 261);
}
