//! Calls of `sequences` that are done each time, before the drawn ones: limits that a draw would seldom
//! meet.

use crate::fuzz::fixed::{call, given, pages, COUNTED, SHOWN};
use crate::run::{Files, Given};
use random::Random;
use second::text::write_whole;
use std::ffi::OsString;
use std::os::unix::ffi::OsStringExt;

/// Lengths of a buffer that a program might have.
const BUFFERS: [usize; 8] = [512, 1_024, 2_048, 4_096, 8_192, 16_384, 32_768, 65_536];

pub fn calls() -> Vec<Given> {
    let mut calls = pages("read");
    calls.extend(long_words());
    calls.extend(odd_words());
    calls.extend(odd_files());
    calls.extend(sums());
    calls.extend(faults_at_buffers());
    calls.extend(long_texts());
    calls
}

fn long_words() -> Vec<Given> {
    let x = |count| "x".repeat(count);
    let last = |count: usize, digit| "0".repeat(count - 1) + digit;
    vec![
        call(&[&x(SHOWN)]),
        call(&[&x(SHOWN + 1)]),
        call(&[&x(COUNTED)]),
        call(&[&x(5_000)]),
        call(&["read", &x(5_000)]),
        call(&["encode", &x(5_000)]),
        call(&["encode", "mu", "5", "2", &x(255)]),
        call(&["encode", "mu", "5", "2", &x(256)]),
        call(&["decode", "mu", "5", "2", &x(5_000)]),
        given(&["encode", "mu", &last(COUNTED, "5"), "2"], b"FF\n00\n"),
        call(&["encode", "mu", &last(COUNTED + 1, "5"), "2"]),
        call(&["encode", "mu", &last(2_000, "9"), &last(2_000, "2")]),
        call(&["encode", "mu", "5", "2", &"0".repeat(5_000)]),
    ]
}

fn odd_words() -> Vec<Given> {
    let odd = || OsString::from_vec(vec![0xFF, b'\'', 0x80]);
    let with = |words: &[&str]| {
        let mut given = given(words, b"FF\n00\n");
        given.words.push(odd());
        given
    };
    let homed = ["decode", "a", "4", "3"];
    let mut there = with(&homed);
    there.files.insert(odd(), b"0102\n03\n".to_vec());
    let mut refused = with(&homed);
    refused.files.insert(odd(), b"0102\n04\n".to_vec());
    vec![
        with(&[]),
        with(&["encode"]),
        with(&homed),
        there,
        refused,
        call(&["encode", "mu", "\u{663}"]),
    ]
}

fn odd_files() -> Vec<Given> {
    ["encode", "decode"]
        .into_iter()
        .flat_map(|command| {
            [".", "/dev/null", "h/", "h/f", "none", "./h"].map(|homing| Given {
                files: Files::from([("h".into(), b"7F\n7F\n".to_vec())]),
                ..given(&[command, "mu", "3", "2", homing], b"0102\n03\n")
            })
        })
        .collect()
}

/// Sums at and about a multiple of 255.
fn sums() -> Vec<Given> {
    let mut calls = Vec::new();
    for values in [
        &[][..],
        &[0],
        &[0xFE],
        &[0xFF],
        &[0xFF; 32],
        &[0xFE, 1],
        &[0xFE, 2],
        &[0x80; 255],
    ] {
        calls.push(given(&["write"], values));
        calls.push(given(&["read"], &write_whole(values)));
        for last in ["FF\n", "00\n", "01\n", "FE\n"] {
            let mut text = write_whole(values);
            text.truncate(text.len() - last.len());
            text.extend(last.bytes());
            calls.push(given(&["read"], &text));
        }
    }
    calls
}

/// A text longer than the greatest buffer, of codewords that every width has.
fn long_text() -> Vec<u8> {
    let octets = Random::new(727).bytes(35_000);
    let codewords: Vec<u8> = octets.iter().map(|octet| octet % 4).collect();
    write_whole(&codewords)
}

/// What is wrong stands where a program with such a buffer begins its next piece, or one character away.
/// Where a digit becomes another the fault is a codeword's, a line feed becomes a line that is too long.
fn faults_at_buffers() -> Vec<Given> {
    let whole = long_text();
    let mut calls = Vec::new();
    for place in BUFFERS.iter().flat_map(|&size| [size - 1, size, size + 1]) {
        for wrong in [b'x', b'F', b'\n'] {
            let mut text = whole.clone();
            text[place] = wrong;
            calls.push(given(&["decode", "mu", "2", "2"], &text));
        }
        calls.push(given(&["read"], &whole[..place]));
    }
    calls
}

fn long_texts() -> Vec<Given> {
    let octets = Random::new(726).bytes(70_001);
    let pcm = write_whole(&octets[..20_001]);
    let mut calls = vec![
        given(&["write"], &octets),
        given(&["read"], &write_whole(&octets)),
        given(&["encode", "a", "5", "3"], &pcm),
        given(&["decode", "mu", "3", "3"], &long_text()),
    ];
    for command in ["encode", "decode"] {
        calls.push(Given {
            files: Files::from([("h".into(), pcm.clone())]),
            ..given(&[command, "mu", "4", "2", "h"], b"0A07\n11\n")
        });
    }
    calls
}

#[cfg(test)]
mod tests {
    use super::*;

    #[test]
    fn the_long_text_is_longer_than_every_buffer() {
        let greatest = BUFFERS.iter().max().copied();
        assert!(Some(long_text().len()) > greatest.map(|size| size + 2));
    }
}
