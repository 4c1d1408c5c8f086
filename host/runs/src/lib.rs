//! Runs of the tool: how it is called, what goes in, and what has to come out.

pub mod compare;
pub mod fuzz;
pub mod perform;
pub mod run;
pub mod stored;
pub mod written;
