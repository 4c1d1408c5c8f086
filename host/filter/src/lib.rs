//! A program in a pipe: its words, what it says of them, what it reads and writes, its pages and its
//! status. The second programs are made of it.

pub mod files;
pub mod line;
pub mod pair;
pub mod program;
pub mod stop;
pub mod words;
