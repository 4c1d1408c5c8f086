//! Calls that are drawn, to be done by two programs and compared: those of the tool here, those of
//! `sequences` below.

mod aim;
pub mod contest;
mod draft;
mod draw;
#[cfg(test)]
mod drawn;
mod edit;
mod ends;
mod fixed;
pub mod sequences;
mod streams;

use contest::Calls;

pub fn of_tool() -> Calls {
    Calls {
        odd: fixed::odd(),
        fixed: fixed::calls(),
        draw: |random| draw::draw(random).1,
    }
}
