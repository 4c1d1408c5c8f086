//! A text written in pieces: which character comes next depends on the stage and on the column alone.

use super::digits::{high_digit, low_digit};
use super::{DIVISOR, LINE_DIGITS};

#[derive(Clone, Copy, Debug, Default, PartialEq, Eq)]
pub enum Stage {
    /// Values may follow.
    #[default]
    Values,
    /// No value follows; the line that was begun is still open.
    Closing,
    /// The remainder was begun.
    Remainder,
    Done,
}

impl Stage {
    /// In the order of their numbers, which begin with 0.
    pub const ALL: [Stage; 4] = [Stage::Values, Stage::Closing, Stage::Remainder, Stage::Done];

    pub fn number(self) -> u8 {
        self as u8
    }
}

/// What is kept between two pieces; any numbers may stand in it.
#[derive(Clone, Copy, Debug, Default, PartialEq, Eq)]
pub struct Writer {
    pub stage: Stage,
    /// How many characters of the line were written.
    pub column: u8,
    /// The value whose low digit may be due.
    pub value: u8,
    /// Of the values that were taken.
    pub sum: u8,
}

#[derive(Clone, Copy, Debug, PartialEq, Eq)]
pub struct WriteAnswer {
    pub writer: Writer,
    /// Values.
    pub taken: usize,
    /// Characters of the text.
    pub written: usize,
}

impl Writer {
    /// Writes from the first octet of `text` on until there is no room or nothing is due.
    pub fn write(self, values: &[u8], text: &mut [u8]) -> WriteAnswer {
        let mut rest = values.iter().copied();
        let mut writer = self;
        let mut written = 0;
        for place in text {
            let Some(character) = writer.next_character(&mut rest) else {
                break;
            };
            *place = character;
            written += 1;
        }
        WriteAnswer {
            writer,
            taken: values.len() - rest.len(),
            written,
        }
    }

    /// No value follows.
    pub fn end(self) -> Writer {
        match self.stage {
            Stage::Values => Writer {
                stage: Stage::Closing,
                ..self
            },
            _ => self,
        }
    }

    fn next_character(&mut self, values: &mut impl Iterator<Item = u8>) -> Option<u8> {
        let begins = self.column.is_multiple_of(2);
        let full = usize::from(self.column) >= LINE_DIGITS;
        match self.stage {
            Stage::Done => None,
            _ if !begins => Some(self.finish_value()),
            Stage::Remainder => {
                self.stage = Stage::Done;
                Some(self.end_line())
            }
            _ if full => Some(self.end_line()),
            Stage::Values => {
                let value = values.next()?;
                let sum = u16::from(self.sum) + u16::from(value);
                self.sum = (sum % u16::from(DIVISOR)) as u8;
                Some(self.begin_value(value))
            }
            Stage::Closing if self.column != 0 => Some(self.end_line()),
            Stage::Closing => {
                self.stage = Stage::Remainder;
                Some(self.begin_value(self.sum % DIVISOR))
            }
        }
    }

    fn begin_value(&mut self, value: u8) -> u8 {
        self.value = value;
        self.column += 1;
        high_digit(value)
    }

    fn finish_value(&mut self) -> u8 {
        self.column = self.column.wrapping_add(1);
        low_digit(self.value)
    }

    fn end_line(&mut self) -> u8 {
        self.column = 0;
        b'\n'
    }
}
