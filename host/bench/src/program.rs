//! A program between two files, which cost less than pipes and are the same for all.

use std::fs::{self, File};
use std::path::{Path, PathBuf};
use std::process::{Command, Stdio};
use std::time::{Duration, Instant};

pub struct Program {
    pub title: &'static str,
    words: Vec<String>,
    folder: PathBuf,
}

pub struct Run {
    pub took: Duration,
    pub octets: Vec<u8>,
    pub said: String,
}

impl Program {
    pub fn new(title: &'static str, command: &str, folder: &Path) -> Program {
        Program {
            title,
            words: command.split(' ').map(str::to_string).collect(),
            folder: folder.to_path_buf(),
        }
    }

    pub fn run(&self, call: &str, input: &[u8]) -> Result<Run, String> {
        let told = |error: std::io::Error| format!("{}: {call}: {error}", self.title);
        let [from, to] = ["in", "out"].map(|name| self.folder.join(name));
        fs::write(&from, input).map_err(told)?;
        let mut command = Command::new(&self.words[0]);
        command
            .args(&self.words[1..])
            .args(call.split(' '))
            .stdin(File::open(&from).map_err(told)?)
            .stdout(File::create(&to).map_err(told)?)
            .stderr(Stdio::piped());
        let start = Instant::now();
        let output = command.output().map_err(told)?;
        let took = start.elapsed();
        let said = String::from_utf8_lossy(&output.stderr).into_owned();
        if !output.status.success() {
            return Err(format!("{}: {call}: {}", self.title, said.trim_end()));
        }
        let octets = fs::read(&to).map_err(told)?;
        Ok(Run { took, octets, said })
    }
}
