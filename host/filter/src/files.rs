//! What is read and what is written: a file by its word, or the standard one.

use crate::stop::Stop;
use crate::words::Word;
use std::ffi::OsStr;
use std::fs::{self, File};
use std::io::{self, BufReader, ErrorKind, Read, Write};
use std::os::unix::ffi::OsStrExt;

pub struct Source {
    /// What it is called once it is open.
    called: &'static str,
    from: Box<dyn Read>,
    /// What to open where this one does not wait for its octets.
    again: Option<&'static str>,
}

/// The system's numbers of a file that is missing, a name that is too long and octets that are no text.
const ENOENT: i32 = 2;
const ENAMETOOLONG: i32 = 36;
const EILSEQ: i32 = 84;
/// Octets of the longest path, and of the longest name in a folder.
const LONGEST: usize = 4095;
const LONGEST_NAME: usize = 255;

/// The proved programs open by text alone. A name that is no UTF-8 is told as no text where its folder has it or it would be made there, and else as the
/// system tells it.
fn said(word: &[u8], written: bool) -> io::Result<()> {
    let refused = |number| Err(io::Error::from_raw_os_error(number));
    if str::from_utf8(word).is_ok() {
        return Ok(());
    }
    if word.len() > LONGEST {
        return refused(ENAMETOOLONG);
    }
    let (folder, name) = match word.iter().rposition(|octet| *octet == b'/') {
        None => (b".".as_slice(), word),
        Some(at) => word.split_at(at + 1),
    };
    let Ok(folder) = str::from_utf8(folder) else {
        return refused(EILSEQ);
    };
    fs::read_dir(folder)?;
    if name.len() > LONGEST_NAME {
        return refused(ENAMETOOLONG);
    }
    let is_there = fs::symlink_metadata(OsStr::from_bytes(word)).is_ok();
    refused(if is_there || written { EILSEQ } else { ENOENT })
}

/// Octets that are read at a time where all are wanted.
const SOME: usize = 65_536;

impl Source {
    pub fn standard() -> Source {
        Source {
            called: "standard input",
            from: Box::new(io::stdin().lock()),
            again: Some("/dev/stdin"),
        }
    }

    pub fn file(called: &'static str, word: &Word) -> Result<Source, Stop> {
        let file = said(word, false).and_then(|()| File::open(OsStr::from_bytes(word)));
        let from = file.map_err(|error| Stop::unopened(word, &error))?;
        Ok(Source {
            called,
            from: Box::new(BufReader::new(from)),
            again: None,
        })
    }

    /// Up to so many octets; fewer only where the stream ends.
    pub fn piece(&mut self, octets: usize) -> Result<Vec<u8>, Stop> {
        let mut piece = vec![0; octets];
        let mut filled = 0;
        while filled < octets {
            match self.more(&mut piece[filled..])? {
                0 => break,
                count => filled += count,
            }
        }
        piece.truncate(filled);
        Ok(piece)
    }

    /// All octets up to the end, or up to where reading failed and why it did.
    pub fn rest(&mut self) -> (Vec<u8>, Option<Stop>) {
        let mut octets = Vec::new();
        let mut some = vec![0; SOME];
        loop {
            match self.more(&mut some) {
                Ok(0) => return (octets, None),
                Ok(count) => octets.extend(&some[..count]),
                Err(stop) => return (octets, Some(stop)),
            }
        }
    }

    /// How many octets were read; none is the end.
    fn more(&mut self, into: &mut [u8]) -> Result<usize, Stop> {
        loop {
            match self.from.read(into) {
                Ok(count) => return Ok(count),
                Err(error) => self.go_on(&error)?,
            }
        }
    }

    /// What can be done about an error, or the end.
    fn go_on(&mut self, error: &io::Error) -> Result<(), Stop> {
        match (error.kind(), self.again.take()) {
            (ErrorKind::Interrupted, again) => self.again = again,
            (ErrorKind::WouldBlock, Some(name)) => self.from = Box::new(self.waiting(name)?),
            _ => return Err(Stop::unread(self.called, error)),
        }
        Ok(())
    }

    /// Opened by its name it waits, whatever the program before has set for its own end.
    fn waiting(&self, name: &str) -> Result<BufReader<File>, Stop> {
        let called = format!("{}, which does not wait", self.called);
        let file = File::open(name).map_err(|error| Stop::unread(&called, &error))?;
        Ok(BufReader::new(file))
    }
}

pub struct Sink {
    called: &'static str,
    to: Box<dyn Write>,
    /// Whether it takes no more.
    pub failed: bool,
}

impl Sink {
    pub fn standard() -> Sink {
        Sink::of("standard output", Box::new(io::stdout().lock()))
    }

    /// The file is emptied, or made.
    pub fn file(called: &'static str, word: &Word) -> Result<Sink, Stop> {
        let file = said(word, true).and_then(|()| File::create(OsStr::from_bytes(word)));
        let to = file.map_err(|error| Stop::unopened(word, &error))?;
        Ok(Sink::of(called, Box::new(to)))
    }

    fn of(called: &'static str, to: Box<dyn Write>) -> Sink {
        Sink {
            called,
            to,
            failed: false,
        }
    }

    /// At once, so that a failure is told at the piece that it is of.
    pub fn put(&mut self, octets: &[u8]) -> Result<(), Stop> {
        let written = self.to.write_all(octets).and_then(|()| self.to.flush());
        self.failed = written.is_err();
        written.map_err(|error| Stop::unwritten(self.called, &error))
    }
}

#[cfg(test)]
mod tests {
    use super::*;

    fn line(stop: Stop) -> String {
        String::from_utf8(stop.0).unwrap()
    }

    /// Octets one by one, and then an error.
    struct Breaking(Vec<u8>);

    impl Read for Breaking {
        fn read(&mut self, out: &mut [u8]) -> io::Result<usize> {
            out[0] = self.0.pop().ok_or(io::Error::from_raw_os_error(5))?;
            Ok(1)
        }
    }

    fn breaking() -> Source {
        Source {
            called: "IN",
            from: Box::new(Breaking(vec![3, 2, 1])),
            again: None,
        }
    }

    const BROKEN: &str = "cannot read IN: Input/output error";

    #[test]
    fn a_piece_is_whole_or_is_not_used() {
        let mut source = breaking();
        assert_eq!(source.piece(2), Ok(vec![1, 2]));
        assert_eq!(source.piece(2).map_err(line), Err(BROKEN.to_string()));
    }

    #[test]
    fn what_was_read_before_a_failure_is_there() {
        let (octets, stop) = breaking().rest();
        assert_eq!(octets, [1, 2, 3]);
        assert_eq!(stop.map(line), Some(BROKEN.to_string()));
    }

    #[test]
    fn only_the_end_makes_a_piece_short() {
        let mut source = Source::file("IN", &"Cargo.toml".into()).unwrap();
        assert_eq!(source.piece(9), Ok(b"[package]".to_vec()));
        let (rest, stop) = source.rest();
        assert!(rest.starts_with(b"\nname") && stop.is_none());
        assert_eq!(source.piece(1), Ok(vec![]));
    }

    #[test]
    fn what_cannot_be_opened_is_told() {
        let word = "no/such".into();
        let due = Some("cannot open 'no/such': No such file or directory".to_string());
        assert_eq!(Source::file("IN", &word).err().map(line), due);
        assert_eq!(Sink::file("OUT", &word).err().map(line), due);
    }

    #[test]
    fn a_name_that_is_no_text_is_not_opened() {
        let due = "cannot open '\u{fffd}': Invalid or incomplete multibyte or wide character";
        let lossy = |stop: Stop| String::from_utf8_lossy(&stop.0).into_owned();
        assert_eq!(Sink::file("OUT", &vec![0xFF]).err().map(lossy), Some(due.to_string()));
        let missing = "cannot open '\u{fffd}': No such file or directory";
        assert_eq!(Source::file("IN", &vec![0xFF]).err().map(lossy), Some(missing.to_string()));
    }

    #[test]
    fn a_failure_is_told_at_once() {
        let mut sink = Sink::file("OUT", &"/dev/full".into()).unwrap();
        let due = "cannot write OUT: No space left on device";
        assert_eq!(sink.put(b"an octet").map_err(line), Err(due.to_string()));
        assert!(sink.failed);
    }
}
