//! A definition and its code made wrong in the same way agree with each other, and the prover may well accept them. Here such pairs
//! are stored, tried in a copy of the repository, and the programs' stored output has to notice each (docs/EVIDENCE.md).

pub mod outcome;
pub mod pair;
pub mod trial;
