//! The program under test: texts in, values out. It reads all texts itself, so that no other reader has
//! to be believed.

use crate::table::Run;
use std::ffi::{OsStr, OsString};
use std::path::Path;
use tool::{Output, Tool};

pub struct Program(Tool);

/// What the program says of a text that it refuses.
pub type Refused = String;

/// An error is one of starting it.
type Answer = Result<Result<Vec<u8>, Refused>, String>;

impl Program {
    /// Where it cannot be started at all, that is said once and not for every file.
    pub fn open(place: &str) -> Result<Program, String> {
        let tool = Tool {
            command: vec![place.to_string()],
        };
        tool.run_whole(&["--version"], b"")?;
        Ok(Program(tool))
    }

    /// The values of a text.
    pub fn read(&self, text: &[u8]) -> Answer {
        self.answer(&["read"], text)
    }

    /// The values of what it makes of a text, the homing file being this one.
    pub fn run(&self, run: &Run, homing: Option<&Path>, text: &[u8]) -> Answer {
        let homing = homing.map(|place| place.as_os_str().to_os_string());
        let words: Vec<OsString> = run.words.iter().map(OsString::from).chain(homing).collect();
        match self.answer(&words, text)? {
            Ok(written) => self.read(&written),
            refused => Ok(refused),
        }
    }

    fn answer<W: AsRef<OsStr>>(&self, words: &[W], text: &[u8]) -> Answer {
        let output = self.0.run(words, text)?;
        Ok(match output.status {
            Some(0) => Ok(output.octets),
            _ => Err(reason(&output)),
        })
    }
}

/// What it said, without its name.
fn reason(output: &Output) -> Refused {
    let said = output.text();
    let line = said.lines().next().unwrap_or_default();
    match (line.strip_prefix("sequences: "), output.status) {
        (Some(what), _) => what.to_string(),
        (None, Some(status)) => format!("it ended with {status}: {line}"),
        (None, None) => "a signal ended it".to_string(),
    }
}

#[cfg(test)]
mod tests {
    use super::*;

    fn ended(line: &str) -> Result<Vec<u8>, Refused> {
        let shell = Program(Tool {
            command: ["sh", "-c", line].map(str::to_string).to_vec(),
        });
        shell.read(b"").unwrap()
    }

    #[test]
    fn what_it_says_is_told() {
        assert_eq!(ended("echo a"), Ok(b"a\n".to_vec()));
        for (line, due) in [
            ("echo sequences: a at 1 >&2; exit 1", "a at 1"),
            ("echo other >&2; exit 3", "it ended with 3: other"),
            ("kill $$", "a signal ended it"),
        ] {
            assert_eq!(ended(line), Err(due.to_string()));
        }
    }

    #[test]
    fn a_program_that_cannot_be_started_is_none() {
        assert!(Program::open("./no-such-program").is_err());
        assert!(Program::open("false").is_err());
    }
}
