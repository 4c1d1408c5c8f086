//! The test sequences that the ITU publishes for G.727 on diskettes: which files there are, what a
//! program has to give for each of them, and whether it does. "The description" is the ITU's, of its
//! sequences (docs/RULES.md, "Sources").

pub mod check;
mod folder;
mod in_order;
mod program;
pub mod table;
mod texts;
pub mod trial;
mod verdict;
