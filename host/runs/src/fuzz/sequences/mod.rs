//! Calls of `sequences`: texts and words, sound and nearly so.

mod draft;
mod draw;
mod fixed;
mod odd;
mod texts;

use super::contest::Calls;

pub fn calls() -> Calls {
    Calls {
        odd: odd::odd(),
        fixed: fixed::calls(),
        draw: |random| draw::draw(random).1,
    }
}
