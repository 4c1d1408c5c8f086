//! Calls of the tool that are done each time, before the drawn ones: limits that a draw would seldom
//! meet.

use super::ends::{Odd, Redirected};
use super::streams::{sound, stream, EDITIONS};
use crate::run::{Done, Files, Given};
use random::Random;
use second::end::End;
use second::frame::NUMBERED;
use second::g711::Law;
use std::ffi::OsString;
use std::os::unix::ffi::OsStringExt;

/// Octets of the longest list, of a word as far as it counts, and of one as far as it is shown.
const LIST: usize = 65_535;
pub const COUNTED: usize = 4_096;
pub const SHOWN: usize = 1_000;

pub fn calls() -> Vec<Given> {
    let mut calls = pages("-v");
    calls.extend(long_words());
    calls.extend(odd_words());
    calls.extend(odd_files());
    calls.extend(lists());
    calls.extend(long_streams());
    calls.extend(long_linear());
    calls
}

pub fn call(words: &[&str]) -> Given {
    Given {
        words: words.iter().map(OsString::from).collect(),
        ..Given::default()
    }
}

/// The pages, and what is not to be taken for a page, this word before one too.
pub fn pages(word: &str) -> Vec<Given> {
    [
        &[][..],
        &[""],
        &["--version"],
        &["--version", ""],
        &["--help"],
        &["--help", "--help"],
        &[word, "--version"],
    ]
    .map(call)
    .to_vec()
}

fn long_words() -> Vec<Given> {
    let x = |count| "x".repeat(count);
    let zeros = |count| "0".repeat(count);
    let last = |count: usize, digit| zeros(count - 1) + digit;
    vec![
        call(&[&x(SHOWN)]),
        call(&[&x(SHOWN + 1)]),
        call(&[&x(COUNTED)]),
        call(&[&x(5_000)]),
        call(&["inspect", &x(255)]),
        call(&["inspect", &x(5_000)]),
        call(&["inspect", "-", &x(5_000)]),
        call(&["drop", "-list", &x(5_000)]),
        // Behind what counts they differ, and so they are one file.
        call(&["inspect", &(x(COUNTED) + "1"), &(x(COUNTED) + "2")]),
        call(&["drop", &last(COUNTED, "2")]),
        call(&["drop", &last(COUNTED + 1, "2")]),
        call(&["encode", "mu", &last(2_000, "9"), &last(2_000, "2")]),
        call(&["encode", "mu", "5", "2", &last(3_000, "8")]),
        call(&["encode", "mu", "5", "2", &zeros(5_000)]),
        call(&["encode", "mu", "5", "2", "8", &last(3_000, "2")]),
        call(&["encode", "mu", "5", "2", "8", &last(COUNTED + 1, "2")]),
    ]
}

fn odd_words() -> Vec<Given> {
    let odd = || OsString::from_vec(vec![0xFF, b'\'', 0x80]);
    let with = |words: &[&str]| {
        let mut given = call(words);
        given.words.push(odd());
        given
    };
    let mut there = with(&["inspect"]);
    there.files.insert(odd(), vec![0x52, 1, 7, 8]);
    vec![
        with(&[]),
        with(&["decode"]),
        with(&["inspect"]),
        with(&["inspect", "-"]),
        with(&["drop", "-list"]),
        there,
        call(&["drop", "\u{663}"]),
    ]
}

/// Folders and devices. What has no end is no IN here.
fn odd_files() -> Vec<Given> {
    [
        &["inspect", "."][..],
        &["-v", "encode", "mu", "5", "2", ".", "out"],
        &["inspect", "-", "."],
        &["-states", ".", "decode", "mu", "-", "out"],
        &["drop", "-list", "."],
        &["drop", "-list", "/dev/full"],
        &["drop", "-list", "/dev/null"],
        &["inspect", "/dev/null", "/dev/full"],
        &["encode", "a", "4", "3", "-", "/dev/null"],
    ]
    .map(|words| given(words, &[0xD5; 24]))
    .to_vec()
}

fn lists() -> Vec<Given> {
    let width_and = |count| [b"3".as_slice(), &vec![b' '; count]].concat();
    let round = b"2 3 4 5\r\n".repeat(7_281);
    [
        width_and(LIST - 1),
        width_and(LIST),
        [width_and(LIST - 2), b"x".to_vec()].concat(),
        [b"x".to_vec(), width_and(LIST - 1)].concat(),
        vec![b' '; LIST],
        vec![b'\n'; LIST + 1],
        [vec![b'\n'; LIST - 1], b"6".to_vec()].concat(),
        round[..LIST - 9].to_vec(),
    ]
    .map(|list| Given {
        input: [0x6A, 1, 1, 2, 3, 4, 5].repeat(5),
        files: Files::from([("w".into(), list)]),
        ..call(&["drop", "-list", "w"])
    })
    .to_vec()
}

/// Longer than the buffers of either program, with more frames than there are numbers; whole, and with
/// a refusal, a cut or a lost frame at the end.
fn long_streams() -> Vec<Given> {
    let mut random = Random::new(727);
    let speech = sound(&mut random, End::Of(Law::Mu), 20_003);
    let frames = stream(&mut random, 3, &EDITIONS, 900);
    let whole = frames.concat();
    let refused = [whole.as_slice(), &[0, 0]].concat();
    let cut = whole[..whole.len() - 1].to_vec();
    let numbered = stream(&mut random, 3, &[NUMBERED], 900);
    let lost = [&numbered[..767], &numbered[768..]].concat().concat();
    let mut calls = vec![given(&["-v", "encode", "mu", "5", "2", "8"], &speech)];
    calls.push(given(&["-v", "encode", "mu", "5", "2", "8", "2"], &speech));
    calls.push(given(&["encode", "a", "4", "4", "-", "out"], &speech));
    for stream in [whole, refused, cut, lost] {
        for words in [
            &["-states", "s", "decode", "a"][..],
            &["-v", "decode", "linear", "-", "out"],
            &["drop", "-most", "4", "-", "out"],
            &["inspect"],
        ] {
            calls.push(given(words, &stream));
        }
    }
    calls
}

/// Linear speech longer than the buffers of either program: whole, with half a sample more, with one
/// sample off the scale.
fn long_linear() -> Vec<Given> {
    let mut random = Random::new(728);
    let speech = sound(&mut random, End::Linear, 10_005);
    let odd = [speech.as_slice(), &[0]].concat();
    let mut off = speech.clone();
    off[20_000..20_002].copy_from_slice(&8_192_i16.to_le_bytes());
    let words = |samples| ["-v", "encode", "linear", "5", "2", samples, "2"];
    [&speech, &odd, &off]
        .into_iter()
        .flat_map(|speech| ["8", "320"].map(|samples| given(&words(samples), speech)))
        .collect()
}

/// Calls whose streams are no ordinary pipes.
pub fn odd() -> Odd {
    Odd {
        name: "parchfennel",
        slow: slow(),
        unread: given(&["encode", "mu", "5", "2"], &[0xFF; 100_000]),
        unwaiting: call(&["decode", "mu"]),
        redirected: vec![unheard()],
    }
}

/// Each command, with so many pieces that every read has to wait.
fn slow() -> Vec<Given> {
    let mut random = Random::new(726);
    let speech = sound(&mut random, End::Of(Law::A), 101);
    let stream = stream(&mut random, 2, &EDITIONS, 9).concat();
    let linear = sound(&mut random, End::Linear, 52);
    vec![
        given(&["-v", "encode", "a", "3", "2", "16"], &speech),
        given(&["-v", "encode", "linear", "5", "2", "16"], &linear),
        given(&["decode", "linear"], &stream),
        given(&["drop", "-most", "3", "-", "out"], &stream),
        given(&["-states", "s", "decode", "mu"], &stream),
        given(&["inspect"], &stream[..stream.len() - 1]),
    ]
}

/// A call that says much and writes a file, with the number that is free first: the file has none of the
/// lines that it would say.
fn unheard() -> Redirected {
    Redirected {
        how: "2>&-",
        given: given(&["-v", "encode", "mu", "5", "2", "8", "-", "out"], &[7; 20]),
        due: |done| Done {
            said: Vec::new(),
            ..done
        },
    }
}

pub fn given(words: &[&str], input: &[u8]) -> Given {
    Given {
        input: input.to_vec(),
        ..call(words)
    }
}

#[cfg(test)]
mod tests {
    use super::*;

    #[test]
    fn the_lists_stand_on_both_sides_of_the_limit() {
        let lengths: Vec<usize> = lists()
            .iter()
            .map(|g| g.files[&OsString::from("w")].len())
            .collect();
        assert_eq!(lengths.iter().filter(|&&l| l == LIST).count(), 4);
        assert_eq!(lengths.iter().filter(|&&l| l == LIST + 1).count(), 3);
    }

    #[test]
    fn the_long_streams_are_long() {
        let all = [long_streams(), long_linear()].concat();
        assert!(all.iter().all(|given| given.input.len() > 9_000));
    }
}
