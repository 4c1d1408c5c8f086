//! A run as the text that is stored of it (`stored` reads it again).

use crate::run::{Done, Given};
use std::ffi::OsStr;
use std::os::unix::ffi::OsStrExt;

const OCTETS_IN_A_LINE: usize = 32;

/// Without a name and a comment. A run that a signal ended has no status, and is no stored run.
pub fn text(given: &Given, due: &Done) -> Vec<u8> {
    let mut text = call(&given.words);
    for (name, octets) in &given.files {
        text.extend(file("file", name, octets));
    }
    text.extend(octets(b"in", &given.input));
    text.extend(octets(b"out", &due.output));
    let said = due.said.strip_suffix(b"\n").unwrap_or(&due.said);
    if !due.said.is_empty() {
        for line in said.split(|&octet| octet == b'\n') {
            text.extend([b"err ", line, b"\n"].concat());
        }
    }
    for (name, octets) in &due.files {
        if given.files.get(name) != Some(octets) {
            text.extend(file("wrote", name, octets));
        }
    }
    if let Some(status) = due.status {
        text.extend(format!("status {status}\n").into_bytes());
    }
    text
}

fn call(words: &[impl AsRef<OsStr>]) -> Vec<u8> {
    let mut line = b"call".to_vec();
    for word in words {
        line.push(b' ');
        match word.as_ref().as_bytes() {
            b"" => line.extend(b"''"),
            word => line.extend(word),
        }
    }
    line.push(b'\n');
    line
}

fn file(kind: &str, name: &OsStr, content: &[u8]) -> Vec<u8> {
    let start = [kind.as_bytes(), b" ", name.as_bytes()].concat();
    if content.is_empty() {
        return [start.as_slice(), b"\n"].concat();
    }
    octets(&start, content)
}

fn octets(start: &[u8], octets: &[u8]) -> Vec<u8> {
    let mut lines = Vec::new();
    for some in octets.chunks(OCTETS_IN_A_LINE) {
        lines.extend(start);
        for octet in some {
            lines.extend(format!(" {octet:02x}").into_bytes());
        }
        lines.push(b'\n');
    }
    lines
}

#[cfg(test)]
mod tests {
    use super::*;
    use crate::run::{Files, Run};
    use crate::stored::parse;
    use std::ffi::OsString;
    use std::os::unix::ffi::OsStringExt;
    use std::path::Path;

    #[test]
    fn what_is_written_is_read_as_it_was() {
        let word = OsString::from_vec(vec![b'x', 0xFF]);
        let before = Files::from([("a".into(), vec![1; 33]), ("b".into(), vec![])]);
        let mut after = before.clone();
        after.extend([("b".into(), vec![2]), (word.clone(), vec![])]);
        let run = Run {
            name: "it".to_string(),
            given: Given {
                words: vec!["drop".into(), "".into(), word],
                input: vec![7; 70],
                files: before,
            },
            due: Done {
                output: vec![8; 32],
                said: b"one\n\n\xFF\n".to_vec(),
                status: Some(2),
                files: after,
            },
        };
        let text = text(&run.given, &run.due);
        assert_eq!(parse("it", &text, Path::new(".")), Ok(run));
    }

    #[test]
    fn nothing_is_written_of_nothing() {
        assert_eq!(text(&Given::default(), &Done::default()), b"call\n");
    }
}
