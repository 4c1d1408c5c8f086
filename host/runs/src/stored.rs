//! How a run is stored, a line for each thing:
//!
//! ```text
//! # why this run is here
//! call drop 2 frames
//! file frames 6a 01 ff 00 00 00 00
//! out 52 01 ff 00
//! status 0
//! ```
//!
//! `in` and `out` have octets in hexadecimal, or after `text` a line of text, and several such lines
//! follow each other in the stream. `out page` has the name of a file beside the run, whose octets are
//! meant. `err` has a line of standard error, and `usage` stands for those of `usage.txt`. `file` has
//! the name of a file and what is in it before the run, `wrote` what is in it afterwards. There is one
//! `call`, in which `''` is an empty word, and one `status`.

use crate::run::{Files, Run};
use std::ffi::OsString;
use std::os::unix::ffi::OsStringExt;
use std::path::Path;
use tool::folder::{self, files, name};

const USAGE: &str = "usage.txt";

/// All runs of a folder, in the order of their names.
pub fn read_all(folder: &Path) -> Result<Vec<Run>, String> {
    files(folder, "run")?
        .iter()
        .map(|place| read(place, folder))
        .collect()
}

fn read(place: &Path, pages: &Path) -> Result<Run, String> {
    parse(&name(place), &folder::read(place)?, pages)
        .map_err(|error| format!("{}: {error}", place.display()))
}

/// The run in a file's octets, which need not be text, since a word need not be. Pages are beside it.
pub fn parse(name: &str, octets: &[u8], pages: &Path) -> Result<Run, String> {
    let mut parser = Parser {
        pages,
        run: Run::default(),
        wrote: Files::new(),
        calls: 0,
        statuses: 0,
    };
    parser.run.name = name.to_string();
    for (number, line) in (1..).zip(lines(octets)) {
        let (kind, rest) = first_word(line);
        parser
            .line(&String::from_utf8_lossy(kind), rest)
            .map_err(|error| format!("line {number}: {error}"))?;
    }
    parser.end()
}

struct Parser<'a> {
    pages: &'a Path,
    run: Run,
    wrote: Files,
    calls: usize,
    statuses: usize,
}

impl Parser<'_> {
    fn line(&mut self, kind: &str, rest: &[u8]) -> Result<(), String> {
        match kind {
            "#" => {}
            "call" => {
                self.run.given.words = words(rest);
                self.calls += 1;
            }
            "status" => {
                self.run.due.status = Some(status(rest)?);
                self.statuses += 1;
            }
            "in" => self.run.given.input.extend(octets(rest)?),
            "out" => self.out(rest)?,
            "err" => self.run.due.said.extend([rest, b"\n"].concat()),
            "usage" => self.run.due.said.extend(self.page(USAGE)?),
            "file" => add(&mut self.run.given.files, rest)?,
            "wrote" => add(&mut self.wrote, rest)?,
            _ => return Err(format!("'{kind}' is no word of a stored run")),
        }
        Ok(())
    }

    fn out(&mut self, rest: &[u8]) -> Result<(), String> {
        let more = match rest.strip_prefix(b"page ") {
            Some(name) => self.page(&String::from_utf8_lossy(name))?,
            None => octets(rest)?,
        };
        self.run.due.output.extend(more);
        Ok(())
    }

    fn page(&self, name: &str) -> Result<Vec<u8>, String> {
        folder::read(&self.pages.join(name))
    }

    /// The run, in which a file that was not written has to be as it was.
    fn end(mut self) -> Result<Run, String> {
        for (count, what) in [(self.calls, "calls"), (self.statuses, "statuses")] {
            if count != 1 {
                return Err(format!("{count} {what}, where one is due"));
            }
        }
        self.run.due.files = self.run.given.files.clone();
        self.run.due.files.extend(self.wrote);
        Ok(self.run)
    }
}

fn lines(octets: &[u8]) -> impl Iterator<Item = &[u8]> {
    let whole = octets.strip_suffix(b"\n").unwrap_or(octets);
    whole.split(|&octet| octet == b'\n')
}

fn first_word(line: &[u8]) -> (&[u8], &[u8]) {
    match line.iter().position(|&octet| octet == b' ') {
        Some(place) => (&line[..place], &line[place + 1..]),
        None => (line, b""),
    }
}

fn words(rest: &[u8]) -> Vec<OsString> {
    rest.split(u8::is_ascii_whitespace)
        .filter(|word| !word.is_empty())
        .map(|word| match word {
            b"''" => OsString::new(),
            _ => OsString::from_vec(word.to_vec()),
        })
        .collect()
}

fn status(rest: &[u8]) -> Result<i32, String> {
    let digits = String::from_utf8_lossy(rest);
    digits
        .parse()
        .map_err(|_| format!("'{digits}' is no status"))
}

fn add(files: &mut Files, rest: &[u8]) -> Result<(), String> {
    let (name, rest) = first_word(rest);
    if name.is_empty() {
        return Err("a file without a name".to_string());
    }
    let file = files.entry(OsString::from_vec(name.to_vec())).or_default();
    file.extend(octets(rest)?);
    Ok(())
}

fn octets(rest: &[u8]) -> Result<Vec<u8>, String> {
    if let (b"text", text) = first_word(rest) {
        return Ok([text, b"\n"].concat());
    }
    String::from_utf8_lossy(rest)
        .split_whitespace()
        .map(octet)
        .collect()
}

fn octet(digits: &str) -> Result<u8, String> {
    let plain = digits.len() == 2 && digits.bytes().all(|digit| digit.is_ascii_hexdigit());
    plain
        .then(|| u8::from_str_radix(digits, 16).ok())
        .flatten()
        .ok_or_else(|| format!("'{digits}' is no octet"))
}

#[cfg(test)]
mod tests {
    use super::*;
    use crate::run::{Done, Given};

    fn read(text: &str) -> Result<Run, String> {
        parse("it", text.as_bytes(), Path::new("stored"))
    }

    #[test]
    fn a_run_is_read() {
        let text = "# why\ncall -v drop '' 2\nin 6a 01\nin ff\nout text 0 1\nout 00\nerr a line\nerr\nstatus 1\n";
        let expected = Run {
            name: "it".to_string(),
            given: Given {
                words: ["-v", "drop", "", "2"].map(OsString::from).to_vec(),
                input: vec![0x6A, 1, 0xFF],
                files: Files::new(),
            },
            due: Done {
                output: b"0 1\n\0".to_vec(),
                said: b"a line\n\n".to_vec(),
                status: Some(1),
                files: Files::new(),
            },
        };
        assert_eq!(read(text), Ok(expected));
    }

    #[test]
    fn files_are_there_before_and_afterwards() {
        let text =
            "call\nstatus 0\nfile a 01\nfile a text\nfile b text b\nwrote b\nwrote c text c c";
        let run = read(text).unwrap();
        let [a, b, c] = ["a", "b", "c"].map(OsString::from);
        let before = [
            (a.clone(), b"\x01\n".to_vec()),
            (b.clone(), b"b\n".to_vec()),
        ];
        assert_eq!(run.given.files, Files::from(before));
        let after = [(a, b"\x01\n".to_vec()), (b, vec![]), (c, b"c c\n".to_vec())];
        assert_eq!(run.due.files, Files::from(after));
    }

    #[test]
    fn pages_are_those_of_the_folder() {
        let run = read("call\nstatus 2\nout page usage.txt\nerr a\nusage\nerr b").unwrap();
        let usage = folder::read(Path::new("stored/usage.txt")).unwrap();
        assert_eq!(run.due.said, [b"a\n", usage.as_slice(), b"b\n"].concat());
        assert_eq!(run.due.output, usage);
        assert!(read("call\nstatus 0\nout page none.txt").is_err());
    }

    #[test]
    fn a_word_need_not_be_text() {
        let run = parse("it", b"call \xFF\nstatus 2", Path::new(".")).unwrap();
        assert_eq!(run.given.words, [OsString::from_vec(vec![0xFF])]);
    }

    #[test]
    fn a_wrong_line_is_told_with_its_number() {
        for (text, wrong) in [
            ("call\nout 6", "line 2: '6' is no octet"),
            ("call\nin +f", "line 2: '+f' is no octet"),
            ("call\nfrom x", "line 2: 'from' is no word of a stored run"),
            ("call\nstatus", "line 2: '' is no status"),
            ("call\nfile", "line 2: a file without a name"),
            ("in ff", "0 calls, where one is due"),
            ("call\ncall", "2 calls, where one is due"),
            ("call", "0 statuses, where one is due"),
            ("call\nstatus 0\nstatus 0", "2 statuses, where one is due"),
        ] {
            assert_eq!(read(text), Err(wrong.to_string()));
        }
    }
}
