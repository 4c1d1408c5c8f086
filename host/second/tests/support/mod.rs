//! What several test files share: the printed tables, drawn texts, calls to be spoilt.
#![allow(dead_code)]

pub mod asked;
pub mod printed;
pub mod texts;
