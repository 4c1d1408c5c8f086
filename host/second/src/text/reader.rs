//! A text read in pieces. What a character does is one step; a call takes steps while there are characters, room for the
//! values and nothing to refuse.

use super::digits::digit;
use super::verdict::{Refusal, Refused, Verdict};
use super::{DIVISOR, LINE_DIGITS};

/// What is kept between two pieces; any numbers may stand in it.
#[derive(Clone, Copy, Debug, Default, PartialEq, Eq)]
pub struct Reader {
    pub verdict: Verdict,
    /// Where the line starts.
    pub line: u64,
    /// How many characters of the line were read.
    pub column: u8,
    /// The digit that waits for its low one.
    pub high: u8,
    /// Whether `held` is a value that may turn out to be the remainder.
    pub holds: bool,
    pub held: u8,
    /// Of the values that were handed out.
    pub sum: u8,
}

#[derive(Clone, Copy, Debug, PartialEq, Eq)]
pub struct ReadAnswer {
    pub reader: Reader,
    /// Characters of the text.
    pub taken: usize,
    /// Values.
    pub written: usize,
}

/// A line feed behind a value has this many characters with the value's.
const REMAINDER_LINE: u64 = 3;

type Step = Result<(Reader, Option<u8>), Refused>;

impl Reader {
    /// Takes from the front of `text` what it can, and writes the values from the first octet of `values` on.
    pub fn read(self, text: &[u8], values: &mut [u8]) -> ReadAnswer {
        let mut answer = ReadAnswer {
            reader: self,
            taken: 0,
            written: 0,
        };
        if self.verdict != Verdict::Sound {
            return answer;
        }
        for &character in text {
            match answer.reader.step(character) {
                Err(refused) => {
                    answer.reader.verdict = Verdict::Refused(refused);
                    break;
                }
                Ok((_, Some(_))) if answer.written == values.len() => break,
                Ok((next, due)) => {
                    if let Some(value) = due {
                        values[answer.written] = value;
                        answer.written += 1;
                    }
                    answer.reader = next;
                    answer.taken += 1;
                }
            }
        }
        answer
    }

    /// The text ends here.
    pub fn end(self) -> Verdict {
        let refused = match self.verdict {
            Verdict::Refused(refused) => refused,
            Verdict::Sound if self.column != 0 || !self.holds => {
                Refusal::MissingRemainder.at(self.line)
            }
            Verdict::Sound if self.held == self.sum % DIVISOR => return Verdict::Sound,
            Verdict::Sound => Refusal::WrongRemainder.at(self.line.wrapping_sub(REMAINDER_LINE)),
        };
        Verdict::Refused(refused)
    }

    /// What a character does to a reader that is sound: the next reader, and the value that is handed out.
    fn step(self, character: u8) -> Step {
        match digit(character) {
            Some(_) if usize::from(self.column) >= LINE_DIGITS => {
                Err(self.refuse(Refusal::LineTooLong))
            }
            Some(digit) if self.column.is_multiple_of(2) => Ok(self.first_digit(digit)),
            Some(digit) => Ok(self.second_digit(digit)),
            None if character == b'\n' => self.line_feed(),
            None => Err(self.refuse(Refusal::BadCharacter)),
        }
    }

    fn refuse(self, refusal: Refusal) -> Refused {
        refusal.at(self.line.wrapping_add(u64::from(self.column)))
    }

    fn line_feed(self) -> Step {
        if self.column == 0 || self.column % 2 == 1 {
            return Err(self.refuse(Refusal::BadCharacter));
        }
        let next = Reader {
            line: self.line.wrapping_add(u64::from(self.column) + 1),
            column: 0,
            ..self
        };
        Ok((next, None))
    }

    /// What was held is no remainder, since something follows.
    fn first_digit(self, digit: u8) -> (Reader, Option<u8>) {
        let due = self.holds.then_some(self.held);
        let next = Reader {
            high: digit,
            column: self.column + 1,
            holds: false,
            sum: due.map_or(self.sum, |value| self.sum_with(value)),
            ..self
        };
        (next, due)
    }

    fn second_digit(self, digit: u8) -> (Reader, Option<u8>) {
        let value = (self.high << 4).wrapping_add(digit);
        let next = Reader {
            column: self.column + 1,
            ..self
        };
        if self.column == 1 {
            let holding = Reader {
                holds: true,
                held: value,
                ..next
            };
            return (holding, None);
        }
        let sum = self.sum_with(value);
        (Reader { sum, ..next }, Some(value))
    }

    fn sum_with(self, value: u8) -> u8 {
        let sum = u16::from(self.sum) + u16::from(value);
        (sum % u16::from(DIVISOR)) as u8
    }
}
