//! The text of a sequence: two hexadecimal digits a value, up to 32 values a line, the remainder alone on the last line.
//! A whole text is read and written here in one go (`whole`), and in pieces of any length (`reader`, `writer`).

mod digits;
mod reader;
mod verdict;
mod whole;
mod writer;

pub use reader::{ReadAnswer, Reader};
pub use verdict::{Refusal, Refused, Verdict};
pub use whole::{read_whole, write_whole, Reading};
pub use writer::{Stage, WriteAnswer, Writer};

/// The most values of a line.
pub const LINE_VALUES: usize = 32;
/// The most digits of a line.
pub const LINE_DIGITS: usize = 2 * LINE_VALUES;
/// The remainder is that of the division by this.
pub const DIVISOR: u8 = 255;
