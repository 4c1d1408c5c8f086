//! A call by its parts, drawn from the grammar of docs/TOOL.md so that all of it fits, and the faults
//! that its data, its files and their names may get.

use super::streams::{damage, frames, misplace, narrowest, sound, spoil_linear, EDITIONS};
use crate::run::{Files, Given};
use random::states::PAIRS;
use random::Random;
use second::end::End;
use second::g711::Law;
use std::ffi::OsString;

/// Each is another file, since what two words for one file come to hangs on how writing is buffered.
const INPUTS: [&str; 4] = ["in", "./160", "./-", "frames.\u{fc}"];
const OUTPUTS: [&str; 3] = ["out", "./8", "./-v"];
const STATES: [&str; 2] = ["s", "./7"];
const LIST: &str = "w";
/// encode, LAW, WIDTH and CORE.
const BEFORE_SAMPLES: usize = 4;

pub struct Draft {
    verbose: bool,
    states: Option<&'static str>,
    states_last: bool,
    /// The command and its words up to those of files.
    command: Vec<String>,
    list: Option<&'static str>,
    input: Option<&'static str>,
    output: Option<&'static str>,
    /// What goes in, in pieces that damage keeps apart.
    stream: Vec<Vec<u8>>,
    files: Files,
}

impl Draft {
    pub fn draw(random: &mut Random) -> Draft {
        let mut draft = match random.below(8) {
            0..=2 => encode(random),
            3 | 4 => decode(random),
            5 => inspect(random),
            _ => drop(random),
        };
        draft.verbose = random.below(3) == 0;
        draft.states_last = random.below(2) == 0;
        if draft.has_states() && random.below(3) == 0 {
            draft.states = Some(random.pick(&STATES));
        }
        draft.draw_files(random);
        if random.below(10) == 0 {
            damage(random, &mut draft.stream);
        }
        draft
    }

    fn new(command: Vec<String>, stream: Vec<Vec<u8>>) -> Draft {
        Draft {
            verbose: false,
            states: None,
            states_last: false,
            command,
            list: None,
            input: None,
            output: None,
            stream,
            files: Files::new(),
        }
    }

    fn has_states(&self) -> bool {
        ["encode", "decode"].contains(&self.command[0].as_str())
    }

    fn is_linear_encode(&self) -> bool {
        self.command.starts_with(&words("encode linear"))
    }

    /// IN and OUT, and what files of theirs were before.
    fn draw_files(&mut self, random: &mut Random) {
        self.input = [None, Some("-"), Some(random.pick(&INPUTS))][random.below(3) as usize];
        if self.input.is_some() {
            self.output = [None, Some("-"), Some(random.pick(&OUTPUTS))][random.below(3) as usize];
        }
        for written in [self.output, self.states].into_iter().flatten() {
            if random.below(3) == 0 && written != "-" {
                self.files
                    .insert(file(written), b"something before\n".to_vec());
            }
        }
    }

    /// A fault of the data or of a file, of which the words know nothing.
    pub fn spoil(&mut self, random: &mut Random) {
        let unwritten = random.pick(&[".", "none/f", "/dev/full"]);
        match random.below(10) {
            0 => self.input = Some(random.pick(&["none", "none/f", "."])),
            1 => {
                self.input = self.input.or(Some("-"));
                self.output = Some(unwritten);
            }
            2 if self.has_states() => self.states = Some(unwritten),
            2..=4 if self.list.is_some() => self.spoil_list(random),
            _ if self.is_linear_encode() => self.spoil_speech(random),
            _ if self.command[0] == "encode" => self.input = Some("none"),
            5..=7 => misplace(random, &mut self.stream),
            _ => damage(random, &mut self.stream),
        }
    }

    fn spoil_speech(&mut self, random: &mut Random) {
        let mut speech = self.stream.concat();
        spoil_linear(random, &mut speech);
        self.stream = vec![speech];
    }

    /// One name for two files, of which one is written.
    pub fn tangle(&mut self, random: &mut Random) {
        let one = Some(random.pick(&INPUTS));
        let second = random.below(2) == 0;
        self.input = self.input.or(Some("-"));
        match (self.has_states() && random.below(2) == 0, second) {
            (true, true) => (self.states, self.output) = (one, one),
            (true, false) => (self.states, self.input) = (one, one),
            (false, true) if self.list.is_some() => (self.list, self.output) = (one, one),
            (false, _) => (self.input, self.output) = (one, one),
        }
    }

    /// Numbers behind CORE of which one is wrong or too many. Only encode has some.
    pub fn miscount(&mut self, random: &mut Random) -> bool {
        let numbers = [
            "2", "7 3", "12 2", "160 0", "160 3", "8 12", "8 258", "8 1 2", "320 2 8",
        ];
        let counts = self.command[0] == "encode";
        if counts {
            self.command.truncate(BEFORE_SAMPLES);
            self.command.extend(words(random.pick(&numbers)));
        }
        counts
    }

    fn spoil_list(&mut self, random: &mut Random) {
        let bad = [
            "",
            " \n\t\r\n",
            "2 3\n4 6\n",
            "22",
            "1",
            "2\n3,4",
            "5\n\n-",
            "2\0",
        ];
        if random.below(4) == 0 {
            self.list = Some(random.pick(&["none", ".", "/dev/full"]));
        } else {
            self.files.insert(file(LIST), random.pick(&bad).into());
        }
    }

    pub fn given(self) -> Given {
        let mut given = Given {
            words: self.words().into_iter().map(OsString::from).collect(),
            input: self.stream.concat(),
            files: self.files,
        };
        if let Some(name) = self.input.filter(|name| INPUTS.contains(name)) {
            let octets = std::mem::take(&mut given.input);
            given.files.insert(file(name), octets);
        }
        given
    }

    fn words(&self) -> Vec<String> {
        let verbose = self.verbose.then_some(vec!["-v".to_string()]);
        let states = self.states.map(|name| named("-states", name));
        let mut options = [verbose, states];
        if !self.states_last {
            options.reverse();
        }
        let list = self.list.map(|name| named("-list", name));
        let places = [self.input, self.output].into_iter().flatten();
        let mut words: Vec<String> = options.into_iter().flatten().flatten().collect();
        words.extend(self.command.iter().cloned());
        words.extend(list.into_iter().flatten());
        words.extend(places.map(str::to_string));
        words
    }
}

fn named(option: &str, name: &str) -> Vec<String> {
    vec![option.to_string(), name.to_string()]
}

/// The file that a word means.
pub fn file(word: &str) -> OsString {
    word.strip_prefix("./").unwrap_or(word).into()
}

pub fn words(text: &str) -> Vec<String> {
    text.split(' ').map(str::to_string).collect()
}

fn encode(random: &mut Random) -> Draft {
    let end = random.pick(&End::ALL);
    let (width, core) = random.pick(&PAIRS);
    let mut call = words(&format!("encode {} {width} {core}", word_of_end(end)));
    if random.below(2) == 0 {
        let groups = random.within(1, 40);
        call.push((8 * groups).to_string());
        if random.below(3) > 0 {
            call.push(random.pick(&EDITIONS).to_string());
        }
    }
    let bound = random.pick(&[20, 100, 700]);
    let count = random.below(bound) as usize;
    Draft::new(call, vec![sound(random, end, count)])
}

pub fn word_of(law: Law) -> &'static str {
    match law {
        Law::Mu => "mu",
        Law::A => "a",
    }
}

fn word_of_end(end: End) -> &'static str {
    match end {
        End::Of(law) => word_of(law),
        End::Linear => "linear",
    }
}

fn decode(random: &mut Random) -> Draft {
    let end = random.pick(&End::ALL);
    let call = words(&format!("decode {}", word_of_end(end)));
    Draft::new(call, one_core(random).1)
}

fn inspect(random: &mut Random) -> Draft {
    let mut stream = one_core(random).1;
    stream.extend(one_core(random).1);
    Draft::new(words("inspect"), stream)
}

fn one_core(random: &mut Random) -> (u8, Vec<Vec<u8>>) {
    let core = random.within(2, 4) as u8;
    (core, frames(random, core))
}

fn drop(random: &mut Random) -> Draft {
    let most = random.below(2) == 0;
    let (core, mut stream) = one_core(random);
    let fitting = (core, narrowest(&stream));
    if most {
        stream.extend(one_core(random).1);
    }
    let (least, greatest) = if most { (2, 5) } else { fitting };
    let mut width = || random.within(least.into(), greatest.into()).to_string();
    let widths: Vec<String> = (0..7).map(|_| width()).collect();
    let mut draft = Draft::new(words(if most { "drop -most" } else { "drop" }), stream);
    if random.below(2) == 0 {
        draft.command.push(widths[0].clone());
    } else {
        let count = 1 + random.below(7) as usize;
        let text = widths[..count].join(random.pick(&[" ", "\n", "\r\n", "\t \n"]));
        draft.list = Some(LIST);
        draft.files.insert(file(LIST), text.into_bytes());
    }
    draft
}
