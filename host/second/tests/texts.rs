//! Texts worked by hand, each read as a whole and in steps: every row of the table of refusals, and the edges of lines and sums.

use second::text::Refusal::{self, BadCharacter, LineTooLong, MissingRemainder, WrongRemainder};
use second::text::{read_whole, write_whole, Reader, Reading, Refused, Verdict};

fn text(lines: &str) -> Vec<u8> {
    lines.as_bytes().to_vec()
}

/// In steps, at once and with room for all; the places are not told.
fn in_steps(text: &[u8]) -> (Vec<u8>, Verdict) {
    let mut values = vec![0; text.len()];
    let answer = Reader::default().read(text, &mut values);
    values.truncate(answer.written);
    (values, answer.reader.end())
}

fn hold(text: &[u8], values: &[u8], places: &[u64], refused: Option<Refused>) {
    let shown = String::from_utf8_lossy(text);
    let due = Reading {
        values: values.to_vec(),
        places: places.to_vec(),
        refused,
    };
    assert_eq!(read_whole(text), due, "{shown:?}");
    let verdict = refused.map_or(Verdict::Sound, Verdict::Refused);
    assert_eq!(in_steps(text), (values.to_vec(), verdict), "{shown:?}");
}

fn sound(lines: &str, values: &[u8], places: &[u64]) {
    hold(&text(lines), values, places, None);
}

fn refused(lines: &str, values: &[u8], places: &[u64], refusal: Refusal, place: u64) {
    hold(&text(lines), values, places, Some(refusal.at(place)));
}

#[test]
fn good_texts() {
    sound("00\n", &[], &[]);
    sound("01\n01\n", &[1], &[0]);
    sound("0102\n03\n", &[1, 2], &[0, 2]);
    sound("01\n02\n03\n", &[1, 2], &[0, 3]);
    sound("00\n00\n", &[0], &[0]);
    sound("1A2b\n45\n", &[0x1A, 0x2B], &[0, 2]);
    sound("7F\n80\nFF\n00\n", &[0x7F, 0x80, 0xFF], &[0, 3, 6]);
}

#[test]
fn both_cases_of_letter() {
    let values = [0xAB, 0xCD, 0xEF];
    // 171 + 205 + 239 = 615, less 2 x 255.
    for lines in ["ABCDEF\n69\n", "abcdef\n69\n", "aBCdEf\n69\n"] {
        sound(lines, &values, &[0, 2, 4]);
    }
    for lines in ["FA\nFA\n", "fa\nfa\n", "Fa\nfA\n"] {
        sound(lines, &[0xFA], &[0]);
    }
}

#[test]
fn bad_characters() {
    for lines in ["\n", " 00\n", "G0\n", "-", "\r\n", "\0", "\u{7f}"] {
        refused(lines, &[], &[], BadCharacter, 0);
    }
    for character in ["G", "g", "@", "`", "/", ":", " ", "\r", "\t", "\0", "x"] {
        refused(&format!("0{character}"), &[], &[], BadCharacter, 1);
        refused(&format!("01{character}"), &[], &[], BadCharacter, 2);
        refused(&format!("010{character}"), &[1], &[0], BadCharacter, 3);
        refused(&format!("01\n{character}"), &[], &[], BadCharacter, 3);
        refused(&format!("01\n0{character}"), &[1], &[0], BadCharacter, 4);
        refused(
            &format!("0102\n{character}"),
            &[1, 2],
            &[0, 2],
            BadCharacter,
            5,
        );
    }
    for octet in (0..=255_u8).filter(|octet| !octet.is_ascii_hexdigit() && *octet != b'\n') {
        let bad = Some(BadCharacter.at(2));
        hold(&[b'0', b'0', octet], &[], &[], bad);
    }
}

#[test]
fn line_feeds_out_of_place() {
    refused("00\n\n", &[], &[], BadCharacter, 3);
    refused("0102\n\n03\n", &[1, 2], &[0, 2], BadCharacter, 5);
    refused("0\n", &[], &[], BadCharacter, 1);
    refused("010\n01\n", &[1], &[0], BadCharacter, 3);
    refused("01\n0\n", &[1], &[0], BadCharacter, 4);
    refused("00\r\n", &[], &[], BadCharacter, 2);
}

/// 32 values of 01 and one more digit.
#[test]
fn lines_too_long() {
    let ones = "01".repeat(32);
    let places: Vec<u64> = (0..64).step_by(2).collect();
    sound(&format!("{ones}\n20\n"), &[1; 32], &places);
    for next in ["0", "01", "01\n", "9", "a", "F"] {
        refused(&format!("{ones}{next}"), &[1; 32], &places, LineTooLong, 64);
    }
    for next in ["G", " ", "\r"] {
        refused(
            &format!("{ones}{next}"),
            &[1; 32],
            &places,
            BadCharacter,
            64,
        );
    }
    let second: Vec<u64> = std::iter::once(0).chain((3..67).step_by(2)).collect();
    refused(
        &format!("01\n{ones}01\n"),
        &[1; 33],
        &second,
        LineTooLong,
        67,
    );
    refused(
        &format!("{}\n00\n", "0".repeat(63)),
        &[0; 31],
        &places[..31],
        BadCharacter,
        63,
    );
}

#[test]
fn wrong_remainders() {
    refused("01\n", &[], &[], WrongRemainder, 0);
    refused("FF\n", &[], &[], WrongRemainder, 0);
    refused("01\n02\n", &[1], &[0], WrongRemainder, 3);
    refused("01\n00\n", &[1], &[0], WrongRemainder, 3);
    refused("0102\n04\n", &[1, 2], &[0, 2], WrongRemainder, 5);
    refused("0102\n02\n", &[1, 2], &[0, 2], WrongRemainder, 5);
    refused(
        "01\n02\n03\n03\n",
        &[1, 2, 3],
        &[0, 3, 6],
        WrongRemainder,
        9,
    );
}

#[test]
fn missing_remainders() {
    refused("", &[], &[], MissingRemainder, 0);
    refused("0", &[], &[], MissingRemainder, 0);
    refused("00", &[], &[], MissingRemainder, 0);
    refused("010", &[1], &[0], MissingRemainder, 0);
    refused("0102", &[1, 2], &[0, 2], MissingRemainder, 0);
    refused("0102\n", &[1, 2], &[0, 2], MissingRemainder, 5);
    refused("0102\n0", &[1, 2], &[0, 2], MissingRemainder, 5);
    refused("0102\n03", &[1, 2], &[0, 2], MissingRemainder, 5);
    refused("0102\n030", &[1, 2, 3], &[0, 2, 5], MissingRemainder, 5);
    refused("01\n01", &[1], &[0], MissingRemainder, 3);
    refused("00\n0102\n", &[0, 1, 2], &[0, 3, 5], MissingRemainder, 8);
    let (ones, places): (String, Vec<u64>) = ("01".repeat(32), (0..64).step_by(2).collect());
    refused(&ones, &[1; 32], &places, MissingRemainder, 0);
    refused(
        &format!("{ones}\n"),
        &[1; 32],
        &places,
        MissingRemainder,
        65,
    );
}

/// FF would be the remainder of a sum of 255, and is never right: that of 255 is 00.
#[test]
fn sums_about_255() {
    sound("FF\n00\n", &[255], &[0]);
    refused("FF\nFF\n", &[255], &[0], WrongRemainder, 3);
    sound("FE\nFE\n", &[254], &[0]);
    sound("FF01\n01\n", &[255, 1], &[0, 2]);
    sound("FFFF\n00\n", &[255, 255], &[0, 2]);
    refused("FFFF\nFF\n", &[255, 255], &[0, 2], WrongRemainder, 5);
    sound("FEFF\nFE\n", &[254, 255], &[0, 2]);
    sound("FFFF01\n01\n", &[255, 255, 1], &[0, 2, 4]);
}

/// A wrong character is told before a wrong remainder, which is only known at the end.
#[test]
fn characters_before_remainders() {
    refused("01\n05\nG", &[1], &[0], BadCharacter, 6);
    refused("01\n05\n\n", &[1], &[0], BadCharacter, 6);
    refused(
        "01\n05\n06\n0C",
        &[1, 5, 6],
        &[0, 3, 6],
        MissingRemainder,
        9,
    );
}

#[test]
fn written_texts() {
    assert_eq!(write_whole(&[]), b"00\n");
    assert_eq!(write_whole(&[0xAB]), b"AB\nAB\n");
    assert_eq!(write_whole(&[255]), b"FF\n00\n");
    let line = "0A".repeat(32);
    assert_eq!(write_whole(&[10; 32]), text(&format!("{line}\n41\n")));
    assert_eq!(write_whole(&[10; 33]), text(&format!("{line}\n0A\n4B\n")));
    let three = format!("{line}\n{line}\n0A\n8C\n");
    assert_eq!(write_whole(&[10; 65]), text(&three));
}

#[test]
fn numbers_and_names() {
    let numbered = Refusal::ALL.map(|refusal| (refusal.number(), refusal.name()));
    let due = [
        (1, "bad character"),
        (2, "line too long"),
        (3, "wrong remainder"),
        (4, "missing remainder"),
    ];
    assert_eq!(numbered, due);
}
