//! The words of a call one by one, from the left: what each has to be, and what is said of the first
//! that is not.

use crate::line::{quoted, Line};

/// Octets, since a file's name need not be text.
pub type Word = Vec<u8>;

/// Of a longer word this many octets count.
pub const COUNTED: usize = 4_096;

const STANDARD: &str = "-";

pub struct Words<'a> {
    rest: &'a [Word],
}

impl<'a> Words<'a> {
    pub fn new(rest: &'a [Word]) -> Words<'a> {
        Words { rest }
    }

    fn next(&mut self) -> Option<&'a Word> {
        let (first, rest) = self.rest.split_first()?;
        self.rest = rest;
        Some(first)
    }

    /// The next word, which has to be there.
    pub fn due(&mut self, name: &str) -> Result<&'a Word, Line> {
        self.next()
            .ok_or_else(|| format!("a word is missing: {name}").into_bytes())
    }

    /// Whether this option is next; it is then behind.
    pub fn take(&mut self, option: &str) -> bool {
        let found = self.rest.first().is_some_and(|w| w == option.as_bytes());
        if found {
            self.next();
        }
        found
    }

    pub fn take_digits(&mut self) -> Option<&'a Word> {
        let first = self.rest.first()?;
        is_digits(first).then(|| self.next()).flatten()
    }

    /// A file that has no standard one in its place.
    pub fn file(&mut self) -> Result<Word, Line> {
        file_name(self.due("FILE")?)
    }

    /// A file that may be left out.
    pub fn optional_file(&mut self) -> Result<Option<Word>, Line> {
        self.next().map(file_name).transpose()
    }

    /// IN or OUT; none is the standard one.
    pub fn place(&mut self) -> Result<Option<Word>, Line> {
        if self.take(STANDARD) {
            return Ok(None);
        }
        self.optional_file()
    }

    /// Insists that no word is left.
    pub fn end(&mut self) -> Result<(), Line> {
        match self.next() {
            None => Ok(()),
            Some(word) => Err(wrong("unknown word", word)),
        }
    }
}

pub fn wrong(what: &str, word: &[u8]) -> Line {
    [what.as_bytes(), b": ", &quoted(word)].concat()
}

fn file_name(word: &Word) -> Result<Word, Line> {
    if word.is_empty() || is_digits(word) || word.starts_with(b"-") {
        let what = "not a file name (one called so is written with ./ before it)";
        return Err(wrong(what, word));
    }
    Ok(word.clone())
}

/// A number too great for the machine is its greatest one, which is beyond every limit too.
pub fn number(word: &Word) -> Result<usize, Line> {
    if !is_digits(word) {
        return Err(wrong("not a number", word));
    }
    let digits = word.iter().map(|digit| usize::from(digit - b'0'));
    Ok(digits.fold(0, |n: usize, d| n.saturating_mul(10).saturating_add(d)))
}

fn is_digits(word: &Word) -> bool {
    !word.is_empty() && word.iter().all(u8::is_ascii_digit)
}

#[cfg(test)]
mod tests {
    use super::*;

    #[test]
    fn numbers_of_any_length_are_read() {
        assert_eq!(number(&b"320".to_vec()), Ok(320));
        assert_eq!(number(&[vec![b'0'; 4_000], b"8".to_vec()].concat()), Ok(8));
        assert_eq!(number(&vec![b'9'; 4_000]), Ok(usize::MAX));
        for word in ["", "-2", "2.", " 2"] {
            assert!(number(&word.into()).is_err(), "{word}");
        }
    }

    #[test]
    fn a_file_is_told_from_a_number_and_an_option() {
        for word in ["./160", "a-", "16a", "\u{fe}"] {
            assert_eq!(file_name(&word.into()), Ok(word.into()));
        }
        for word in ["", "160", "-", "-x"] {
            assert!(file_name(&word.into()).is_err(), "{word}");
        }
    }

    #[test]
    fn the_standard_place_is_no_file() {
        let given = ["-", "a", "7"].map(Word::from);
        assert!(Words::new(&given).optional_file().is_err());
        let mut words = Words::new(&given);
        assert_eq!(words.place(), Ok(None));
        assert_eq!(words.place(), Ok(Some("a".into())));
        assert!(words.place().is_err());
        assert_eq!(words.place(), Ok(None));
    }
}
