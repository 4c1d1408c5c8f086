//! What is said on standard error. A line is octets, since it may have a word in it.

use std::io::{self, Write};

pub type Line = Vec<u8>;

const SHOWN: usize = 1_000;

/// As much of a word as a line has of it.
pub fn shown(word: &[u8]) -> &[u8] {
    &word[..word.len().min(SHOWN)]
}

pub fn quoted(word: &[u8]) -> Line {
    [b"'", shown(word), b"'"].concat()
}

/// The line under the program's name, at once.
pub fn say(name: &str, line: &[u8]) {
    put(&[name.as_bytes(), b": ", line, b"\n"].concat());
}

/// Lines that have no name before them.
pub fn put(lines: &[u8]) {
    // Where standard error fails, there is nobody to tell.
    let _ = io::stderr().write_all(lines);
}

#[cfg(test)]
mod tests {
    use super::*;

    #[test]
    fn of_a_long_word_the_beginning_is_shown() {
        assert_eq!(quoted(b"x\xFF"), b"'x\xFF'");
        assert_eq!(quoted(&[b'x'; 1_001]), quoted(&[b'x'; 1_000]));
        assert_eq!(quoted(&[b'x'; 1_000]).len(), 1_002);
    }
}
