//! Calls of the codec, one to a line, and their answers (docs/ANSWERS.md): how a line is read and written, the second codec's
//! answer to it, and the groups of calls that are stored. The proved program `answers` reads the stored calls and is held to
//! the second codec's answers.

pub mod answer;
pub mod call;
pub mod due;
pub mod fields;
pub mod given;
pub mod groups;
pub mod line;
pub mod page;
pub mod parts;
pub mod report;
pub mod rows;
pub mod stored;
pub mod text_due;
pub mod text_fields;

pub use answer::answer;
pub use stored::{ANSWERED, ASKED};
