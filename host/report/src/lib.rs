//! The demonstration: speech through the proved tool at every pair of widths, the same speech through
//! a unit with a known fault, and a single page that shows and plays both.

pub mod drawing;
pub mod fault;
pub mod page;
pub mod runs;
pub mod sound;
pub mod states;
