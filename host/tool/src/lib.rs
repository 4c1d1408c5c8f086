//! A program in a pipe, the proved tool or another one with its words: octets in, octets out, what it
//! said on standard error, and its status.

pub mod folder;
pub mod scratch;

use std::borrow::Cow;
use std::ffi::OsStr;
use std::io::{self, ErrorKind, Write};
use std::path::{self, Path, PathBuf};
use std::process::{Child, Command, Stdio};
use std::thread;

pub struct Tool {
    /// The program and the words that come before the tool's own.
    pub command: Vec<String>,
}

#[derive(Debug)]
pub struct Output {
    pub octets: Vec<u8>,
    pub said: Vec<u8>,
    /// None where a signal ended it.
    pub status: Option<i32>,
    /// Whether it ended well and took all of its input.
    pub whole: bool,
}

impl Output {
    pub fn text(&self) -> Cow<'_, str> {
        String::from_utf8_lossy(&self.said)
    }
}

impl Tool {
    /// What it answers, be it a refusal.
    pub fn run<W: AsRef<OsStr>>(&self, words: &[W], input: &[u8]) -> Result<Output, String> {
        self.run_in(Path::new("."), words, input)
    }

    /// The same, where its working folder is this one.
    pub fn run_in<W: AsRef<OsStr>>(
        &self,
        folder: &Path,
        words: &[W],
        input: &[u8],
    ) -> Result<Output, String> {
        let told = |error: String| format!("{}: {error}", joined(words));
        let mut child = self.start(folder, words, Stdio::piped())?;
        let mut pipe = child.stdin.take().ok_or("no pipe to the tool")?;
        let input = input.to_vec();
        // A thread writes, because the tool answers before it has read everything: with one thread
        // both sides could wait for each other on full pipes.
        let writer = thread::spawn(move || pipe.write_all(&input));
        let output = child
            .wait_with_output()
            .map_err(|error| told(error.to_string()))?;
        let written = writer.join().map_err(|_| told("no writer".to_string()))?;
        Ok(Output {
            octets: output.stdout,
            said: output.stderr,
            status: output.status.code(),
            whole: taken(written).map_err(told)? && output.status.success(),
        })
    }

    /// Starts it with this as its standard input, and pipes for what it answers.
    pub fn start<W: AsRef<OsStr>>(
        &self,
        folder: &Path,
        words: &[W],
        input: Stdio,
    ) -> Result<Child, String> {
        let (program, before) = self.command.split_first().ok_or("no command given")?;
        let told = |error| format!("{program} cannot be started: {error}");
        Command::new(placed(program).map_err(told)?)
            .args(before)
            .args(words)
            .current_dir(folder)
            .stdin(input)
            .stdout(Stdio::piped())
            .stderr(Stdio::piped())
            .spawn()
            .map_err(told)
    }

    /// What it answers, where it ends well.
    pub fn run_whole<W: AsRef<OsStr>>(&self, words: &[W], input: &[u8]) -> Result<Output, String> {
        let output = self.run(words, input)?;
        if output.whole {
            return Ok(output);
        }
        let said = output.text();
        let said = said.trim_end();
        Err(format!("{}: it stopped early: {said}", joined(words)))
    }
}

/// A program with a folder in its name is meant from where the caller stands, and not from the working
/// folder that it is given.
fn placed(program: &str) -> io::Result<PathBuf> {
    if program.contains('/') {
        path::absolute(program)
    } else {
        Ok(PathBuf::from(program))
    }
}

fn joined<W: AsRef<OsStr>>(words: &[W]) -> String {
    let words: Vec<_> = words.iter().map(|w| w.as_ref().to_string_lossy()).collect();
    words.join(" ")
}

/// Whether all of the input was taken.
fn taken(written: io::Result<()>) -> Result<bool, String> {
    match written {
        Ok(()) => Ok(true),
        Err(error) if error.kind() == ErrorKind::BrokenPipe => Ok(false),
        Err(error) => Err(format!("input not taken: {error}")),
    }
}

#[cfg(test)]
mod tests {
    use super::*;

    fn tool(words: &[&str]) -> Tool {
        Tool {
            command: words.iter().map(|word| word.to_string()).collect(),
        }
    }

    const NO_WORDS: [&str; 0] = [];

    #[test]
    fn octets_go_through() {
        let input = vec![7; 300_000];
        let output = tool(&["cat"]).run_whole(&NO_WORDS, &input).unwrap();
        assert_eq!(output.octets, input);
        assert_eq!((output.text().as_ref(), output.status), ("", Some(0)));
    }

    #[test]
    fn a_refusal_is_told_with_its_line() {
        let refusing = tool(&["sh", "-c", "cat >/dev/null; echo frame 3 >&2; exit 3"]);
        let answer = refusing.run(&NO_WORDS, b"x").unwrap();
        assert_eq!((answer.text().as_ref(), answer.whole), ("frame 3\n", false));
        assert_eq!(answer.status, Some(3));
        let found = refusing.run_whole(&NO_WORDS, b"x");
        assert!(found.is_err_and(|line| line.contains("frame 3")));
    }

    #[test]
    fn input_that_is_left_is_told() {
        let answer = tool(&["true"]).run(&NO_WORDS, &vec![7; 300_000]).unwrap();
        assert!(!answer.whole);
    }

    #[test]
    fn a_signal_is_no_status() {
        let answer = tool(&["sh", "-c", "kill $$"]).run(&NO_WORDS, b"").unwrap();
        assert_eq!((answer.status, answer.whole), (None, false));
    }

    #[test]
    fn a_run_has_the_working_folder_that_it_is_given() {
        let answer = tool(&["pwd"]).run_in(Path::new("/"), &NO_WORDS, b"");
        assert_eq!(answer.unwrap().octets, b"/\n");
        assert_eq!(placed("src/x").ok(), path::absolute("src/x").ok());
        assert_eq!(placed("cat").ok(), Some(PathBuf::from("cat")));
    }

    #[test]
    fn a_missing_program_is_an_error() {
        assert!(tool(&["./no-such-program"]).run(&NO_WORDS, b"").is_err());
        assert!(tool(&[]).run(&NO_WORDS, b"").is_err());
    }
}
