//! What is said of a file, and how it counts.

use crate::program::Refused;
use std::fmt;

#[derive(Clone, Debug, PartialEq, Eq)]
pub enum Verdict {
    /// With this many values.
    Agrees(usize),
    /// From this value on.
    Differs(usize),
    Absent,
    Unread(Refused),
    /// What it is made of is not there.
    Without(String),
    /// What it is made of, and what is wrong with that.
    Unrun(String),
}

impl Verdict {
    /// Values are counted from 0. Where one list is the front of the other, they differ from its end on.
    pub fn of(published: &[u8], made: &[u8]) -> Verdict {
        if published == made {
            return Verdict::Agrees(made.len());
        }
        let both = published.iter().zip(made);
        Verdict::Differs(both.take_while(|(one, other)| one == other).count())
    }
}

impl fmt::Display for Verdict {
    fn fmt(&self, f: &mut fmt::Formatter) -> fmt::Result {
        match self {
            Verdict::Agrees(values) => write!(f, "agrees; values: {values}"),
            Verdict::Differs(value) => write!(f, "differs from value {value} on"),
            Verdict::Absent => write!(f, "is not there"),
            Verdict::Unread(why) => write!(f, "cannot be read: {why}"),
            Verdict::Without(name) => write!(f, "cannot be run: {name} is not there"),
            Verdict::Unrun(why) => write!(f, "cannot be run: {why}"),
        }
    }
}

#[derive(Clone, Copy, Debug, Default, PartialEq, Eq)]
pub struct Counts {
    pub agree: usize,
    pub differ: usize,
    pub not_there: usize,
}

impl Counts {
    pub fn add(&mut self, verdict: &Verdict) {
        let count = match verdict {
            Verdict::Agrees(_) => &mut self.agree,
            Verdict::Differs(_) | Verdict::Unread(_) | Verdict::Unrun(_) => &mut self.differ,
            Verdict::Absent | Verdict::Without(_) => &mut self.not_there,
        };
        *count += 1;
    }
}

impl fmt::Display for Counts {
    fn fmt(&self, f: &mut fmt::Formatter) -> fmt::Result {
        let Counts {
            agree,
            differ,
            not_there,
        } = self;
        write!(
            f,
            "agree: {agree}; differ: {differ}; not there: {not_there}"
        )
    }
}

#[cfg(test)]
mod tests {
    use super::*;

    #[test]
    fn the_first_value_that_differs_is_found() {
        for (published, made, due) in [
            (&[][..], &[][..], Verdict::Agrees(0)),
            (&[1, 2], &[1, 2], Verdict::Agrees(2)),
            (&[1, 2], &[2, 2], Verdict::Differs(0)),
            (&[1, 2, 3], &[1, 2, 4], Verdict::Differs(2)),
            (&[1, 2], &[1, 2, 4], Verdict::Differs(2)),
            (&[1, 2], &[1], Verdict::Differs(1)),
            (&[], &[1], Verdict::Differs(0)),
        ] {
            assert_eq!(Verdict::of(published, made), due);
        }
    }

    #[test]
    fn each_verdict_is_told_and_counted() {
        let mut counts = Counts::default();
        for (verdict, due) in [
            (Verdict::Agrees(16_384), "agrees; values: 16384"),
            (Verdict::Differs(17), "differs from value 17 on"),
            (Verdict::Absent, "is not there"),
            (
                Verdict::Without("I".to_string()),
                "cannot be run: I is not there",
            ),
            (
                Verdict::Unread("a at 64".to_string()),
                "cannot be read: a at 64",
            ),
            (
                Verdict::Unrun("I: a at 6".to_string()),
                "cannot be run: I: a at 6",
            ),
        ] {
            assert_eq!(verdict.to_string(), due);
            counts.add(&verdict);
        }
        assert_eq!(counts.to_string(), "agree: 1; differ: 3; not there: 2");
    }
}
