//! Slips in the words of a call: one left out, doubled, exchanged with another, or in its place another
//! of them or a wrong one.

use random::Random;
use std::ffi::OsString;
use std::os::unix::ffi::OsStringExt;

/// Wrong words for the tool. No name of a file without an end is among them, since any of them may
/// become IN.
pub const OF_TOOL: [&str; 48] = [
    "",
    "-",
    "--",
    "-x",
    "-v",
    "-states",
    "-most",
    "-list",
    "--help",
    "--version",
    "0",
    "1",
    "2",
    "3",
    "4",
    "5",
    "6",
    "02",
    "+2",
    "2.0",
    "2x",
    "8",
    "12",
    "160",
    "258",
    "320",
    "328",
    "18446744073709551618",
    "18446744073709551624",
    "99999999999999999999999",
    "x",
    "mu",
    "a",
    "linear",
    "ulaw",
    "A",
    "Linear",
    "encode",
    "drop",
    "decode",
    "inspect",
    "in",
    "out",
    "s",
    "w",
    "./160",
    "none/f",
    ".",
];

/// Wrong words for `sequences`; any of them may become HOMING.
pub const OF_SEQUENCES: [&str; 32] = [
    "",
    "-",
    "--",
    "-h",
    "--help",
    "--version",
    "0",
    "1",
    "2",
    "3",
    "4",
    "5",
    "6",
    "02",
    "+2",
    "2.0",
    "160",
    "258",
    "18446744073709551618",
    "mu",
    "a",
    "linear",
    "A",
    "read",
    "write",
    "encode",
    "decode",
    "h",
    "./160",
    "none/f",
    ".",
    "/dev/null",
];

/// One slip or two; where a word becomes a wrong one, it is one of these.
pub fn edit(words: &mut Vec<OsString>, wrong: &[&str], random: &mut Random) {
    for _ in 0..1 + random.below(2) {
        slip(words, wrong, random);
    }
}

fn slip(words: &mut Vec<OsString>, wrong: &[&str], random: &mut Random) {
    if words.is_empty() {
        words.push(wrong_word(wrong, random));
        return;
    }
    let [place, other] = [0; 2].map(|_| random.below(words.len() as u64) as usize);
    match random.below(7) {
        0 => {
            words.remove(place);
        }
        1 => words.insert(place, words[place].clone()),
        2 => words.swap(place, other),
        3 => words[place] = words[other].clone(),
        4 => words.push(wrong_word(wrong, random)),
        _ => words[place] = wrong_word(wrong, random),
    }
}

fn wrong_word(wrong: &[&str], random: &mut Random) -> OsString {
    match random.below(20) {
        0 => OsString::from_vec(vec![b'f', 0xFF, 0xFE]),
        1 => "y".repeat(random.within(999, 1_002) as usize).into(),
        2 => "0".repeat(random.within(4_095, 4_098) as usize).into(),
        _ => random.pick(wrong).into(),
    }
}
