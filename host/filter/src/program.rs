//! A program from its words to its status.

use crate::files::Sink;
use crate::line::{put, say, Line};
use crate::words::{Word, Words, COUNTED};
use std::env;
use std::os::unix::ffi::OsStringExt;
use std::process::ExitCode;

pub struct Program {
    pub name: &'static str,
    pub help: &'static str,
    pub usage: &'static str,
}

#[derive(Debug, PartialEq, Eq)]
pub enum Call<Job> {
    Help,
    Version,
    Job(Job),
}

const VERSION: &str = include_str!("../../../VERSION");
const KIT: &str = include_str!("../../../KIT");

const WRONG_WORDS: u8 = 2;

impl Program {
    /// Does what it is called to do. A job hands back a line for each thing that went wrong.
    pub fn run<Job>(
        &self,
        read: impl FnOnce(&mut Words) -> Result<Job, Line>,
        run: impl FnOnce(&Job) -> Vec<Line>,
    ) -> ExitCode {
        match parse(&words(), read) {
            Ok(Call::Help) => self.ended(page(self.help)),
            Ok(Call::Version) => self.ended(page(&version(self.name))),
            Ok(Call::Job(job)) => self.ended(run(&job)),
            Err(wrong) => {
                say(self.name, &[b"wrong words: ", wrong.as_slice()].concat());
                put(self.usage.as_bytes());
                ExitCode::from(WRONG_WORDS)
            }
        }
    }

    fn ended(&self, lines: Vec<Line>) -> ExitCode {
        for line in &lines {
            say(self.name, line);
        }
        if lines.is_empty() {
            ExitCode::SUCCESS
        } else {
            ExitCode::FAILURE
        }
    }
}

/// The call, or what is wrong with the first wrong word. A page is asked for by one word alone.
pub fn parse<Job>(
    words: &[Word],
    job: impl FnOnce(&mut Words) -> Result<Job, Line>,
) -> Result<Call<Job>, Line> {
    let mut words = Words::new(words);
    if words.take("--help") {
        return words.end().map(|()| Call::Help);
    }
    if words.take("--version") {
        return words.end().map(|()| Call::Version);
    }
    job(&mut words).map(Call::Job)
}

fn words() -> Vec<Word> {
    env::args_os()
        .skip(1)
        .map(|word| {
            let mut word = word.into_vec();
            word.truncate(COUNTED);
            word
        })
        .collect()
}

fn page(text: &str) -> Vec<Line> {
    let written = Sink::standard().put(text.as_bytes());
    written.err().map(|stop| stop.0).into_iter().collect()
}

fn version(name: &str) -> String {
    format!("{name} {VERSION}proved with {KIT}")
}

#[cfg(test)]
mod tests {
    use super::*;

    #[test]
    fn the_packages_have_the_version_of_the_repository() {
        let line = format!("it {}\n", env!("CARGO_PKG_VERSION"));
        let version = version("it");
        assert!(version.starts_with(&line), "{version}");
    }

    #[test]
    fn a_page_stands_alone() {
        let read = |words: &[&str]| {
            let words: Vec<Word> = words.iter().map(|&word| word.into()).collect();
            let call = parse(&words, |words| words.end());
            call.map_err(|line| String::from_utf8_lossy(&line).into_owned())
        };
        assert_eq!(read(&["--help"]), Ok(Call::Help));
        assert_eq!(read(&["--version"]), Ok(Call::Version));
        assert_eq!(read(&[]), Ok(Call::Job(())));
        let wrong = Err("unknown word: 'x'".to_string());
        assert_eq!(read(&["--help", "x"]), wrong);
        assert_eq!(read(&["--version", "x"]), wrong);
        assert_eq!(read(&["x", "--help"]), wrong);
    }
}
