//! Why a run ends before its input does, as the line that says so.

use crate::line::{quoted, Line};
use std::io;

#[derive(Debug, PartialEq, Eq)]
pub struct Stop(pub Line);

impl Stop {
    pub fn unopened(word: &[u8], error: &io::Error) -> Stop {
        Stop::broken(&[b"cannot open ", quoted(word).as_slice()].concat(), error)
    }

    pub fn unread(called: &str, error: &io::Error) -> Stop {
        Stop::broken(format!("cannot read {called}").as_bytes(), error)
    }

    pub fn unwritten(called: &str, error: &io::Error) -> Stop {
        Stop::broken(format!("cannot write {called}").as_bytes(), error)
    }

    fn broken(what: &[u8], error: &io::Error) -> Stop {
        Stop([what, b": ", reason(error).as_bytes()].concat())
    }
}

/// C's text for the error, which Rust shows with its number behind it.
fn reason(error: &io::Error) -> String {
    let text = error.to_string();
    let number = text.find(" (os error ").unwrap_or(text.len());
    text[..number].to_string()
}

#[cfg(test)]
mod tests {
    use super::*;

    #[test]
    fn an_error_is_told_without_its_number() {
        let error = io::Error::from_raw_os_error(2);
        let due = b"cannot open 'x': No such file or directory".to_vec();
        assert_eq!(Stop::unopened(b"x", &error), Stop(due));
    }
}
