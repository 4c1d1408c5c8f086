//! Mutants of the second codec: one thing at a time is changed in its sources, and the comparisons
//! with the proved programs' lines are asked whether they see it. What none of them sees is either
//! equivalent, and then listed with its reason, or a case that the comparisons lack.

pub mod catalog;
pub mod choice;
pub mod equivalents;
pub mod left_out;
pub mod mutant;
pub mod progress;
pub mod report;
pub mod rewrites;
pub mod scanner;
pub mod source;
pub mod told;
pub mod verdict;
pub mod witness;
pub mod workshop;
