//! A call of `sequences` by its parts, drawn so that all of it fits, and the faults that its texts and
//! its homing file may get.

use super::texts::{damage, garbage, text};
use crate::fuzz::draft::{file, word_of, words};
use crate::run::{Files, Given};
use random::states::PAIRS;
use random::Random;
use second::g711::Law;
use std::ffi::OsString;

const HOMING: [&str; 4] = ["h", "./160", "./-h", "PCM_INIT.\u{fc}"];

pub struct Draft {
    /// The command and its words up to HOMING.
    command: Vec<String>,
    homing: Option<&'static str>,
    homing_text: Vec<u8>,
    input: Vec<u8>,
    /// Whether the input is a text.
    is_text: bool,
}

impl Draft {
    pub fn draw(random: &mut Random) -> Draft {
        match random.below(8) {
            0 => Draft::of_octets(random),
            1 | 2 => Draft::of_text(random, words("read"), u8::MAX),
            kind => Draft::of_codec(random, kind < 5),
        }
    }

    fn of_octets(random: &mut Random) -> Draft {
        let count = length(random);
        Draft {
            command: words("write"),
            homing: None,
            homing_text: Vec::new(),
            input: random.bytes(count),
            is_text: false,
        }
    }

    fn of_text(random: &mut Random, command: Vec<String>, greatest: u8) -> Draft {
        let count = length(random);
        let mut values = random.bytes(count);
        for value in &mut values {
            *value &= greatest;
        }
        Draft {
            command,
            homing: None,
            homing_text: Vec::new(),
            input: text(random, &values),
            is_text: true,
        }
    }

    fn of_codec(random: &mut Random, is_encode: bool) -> Draft {
        let law = word_of(random.pick(&Law::BOTH));
        let (width, core) = random.pick(&PAIRS);
        let mut draft = if is_encode {
            let command = words(&format!("encode {law} {width} {core}"));
            Draft::of_text(random, command, u8::MAX)
        } else {
            let command = words(&format!("decode {law} {width} {core}"));
            Draft::of_text(random, command, (1 << width) - 1)
        };
        if random.below(2) == 0 {
            let count = random.below(100) as usize;
            let values = random.bytes(count);
            draft.homing = Some(random.pick(&HOMING));
            draft.homing_text = text(random, &values);
        }
        draft
    }

    /// A fault of a text or of a file, of which the words know nothing.
    pub fn spoil(&mut self, random: &mut Random) {
        if !self.is_text {
            return;
        }
        match random.below(8) {
            0 => self.input = garbage(random),
            1 | 2 if self.homing.is_some() => self.spoil_homing(random),
            3 if self.command[0] == "decode" => self.input = any_values(random),
            _ => damage(random, &mut self.input),
        }
    }

    fn spoil_homing(&mut self, random: &mut Random) {
        match random.below(4) {
            0 => self.homing = Some(random.pick(&["none", "none/f", ".", "/dev/null"])),
            1 => self.homing_text = garbage(random),
            _ => damage(random, &mut self.homing_text),
        }
    }

    pub fn given(self) -> Given {
        let mut words = self.command;
        words.extend(self.homing.map(str::to_string));
        let named = self.homing.filter(|name| HOMING.contains(name));
        Given {
            words: words.into_iter().map(OsString::from).collect(),
            input: self.input,
            files: named.map_or(Files::new(), |name| {
                Files::from([(file(name), self.homing_text)])
            }),
        }
    }
}

/// How many values; one time in sixteen so many that several reads are needed.
fn length(random: &mut Random) -> usize {
    let bound = match random.below(16) {
        0 => 4_600,
        1..=5 => 300,
        _ => 70,
    };
    random.below(bound) as usize
}

/// Codewords of which some are above every width.
fn any_values(random: &mut Random) -> Vec<u8> {
    let count = random.below(80) as usize;
    let rarely = |random: &mut Random| match random.below(40) {
        0 => random.byte(),
        _ => random.byte() & 3,
    };
    let values: Vec<u8> = (0..count).map(|_| rarely(random)).collect();
    text(random, &values)
}
