//! A second G.727 codec, written apart from the first so that a misreading is not made twice.
//! Where section 6.2 of the Recommendation writes words and masks, this one keeps signed numbers,
//! and where it writes tables of ranges, this one searches lists of thresholds. Beside it, reading and
//! writing the text of a sequence, also in a way of its own.

pub mod adaptation;
pub mod calls;
pub mod end;
pub mod engine;
pub mod float;
pub mod frame;
pub mod g711;
pub mod linear;
pub mod logarithm;
pub mod predictor;
pub mod quantizer;
pub mod replies;
pub mod sample;
pub mod state;
pub mod tables;
pub mod text;
