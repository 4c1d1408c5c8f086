//! A line taken apart: its fields from the left, and why it is no call.

use std::fmt;

/// Why a line is no call. Fields are counted from 1, which is the call's word.
#[derive(Clone, Copy, Debug, PartialEq, Eq)]
pub enum Unread {
    NoSuchCall,
    Field(usize),
    TooMany(usize),
}

impl fmt::Display for Unread {
    fn fmt(&self, f: &mut fmt::Formatter) -> fmt::Result {
        match self {
            Unread::NoSuchCall => write!(f, "no such call"),
            Unread::Field(place) => write!(f, "cannot be read: field {place}"),
            Unread::TooMany(place) => write!(f, "too many: field {place}"),
        }
    }
}

/// The fields behind the call's word.
pub struct Fields<'a> {
    rest: std::str::Split<'a, char>,
    taken: usize,
}

impl<'a> Fields<'a> {
    /// The call's word, and the fields behind it.
    pub fn of(line: &'a str) -> (&'a str, Fields<'a>) {
        let mut rest = line.split(' ');
        let word = rest.next().unwrap_or_default();
        (word, Fields { rest, taken: 1 })
    }

    pub fn take<T>(&mut self, read: impl Fn(&str) -> Option<T>) -> Result<T, Unread> {
        self.taken += 1;
        let field = self.rest.next().and_then(read);
        field.ok_or(Unread::Field(self.taken))
    }

    pub fn end(&mut self) -> Result<(), Unread> {
        match self.rest.next() {
            None => Ok(()),
            Some(_) => Err(Unread::TooMany(self.taken + 1)),
        }
    }
}
