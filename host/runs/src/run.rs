//! A run of the tool: what is given to it, and what has to come of it.

use std::ffi::OsString;

pub use tool::scratch::Files;

#[derive(Debug, Default, PartialEq, Eq)]
pub struct Run {
    pub name: String,
    pub given: Given,
    pub due: Done,
}

#[derive(Clone, Debug, Default, PartialEq, Eq)]
pub struct Given {
    pub words: Vec<OsString>,
    pub input: Vec<u8>,
    /// Those of the working folder.
    pub files: Files,
}

#[derive(Clone, Debug, Default, PartialEq, Eq)]
pub struct Done {
    pub output: Vec<u8>,
    /// Standard error.
    pub said: Vec<u8>,
    /// None where a signal ended it.
    pub status: Option<i32>,
    /// All that are in the folder afterwards.
    pub files: Files,
}

impl Given {
    /// The words in a line.
    pub fn call(&self) -> String {
        let words: Vec<_> = self.words.iter().map(|w| w.to_string_lossy()).collect();
        words.join(" ")
    }
}
