//! What is asked of drawn calls, of whichever program.

use super::aim::Aim;
use crate::run::Given;
use random::Random;

pub const COUNT: usize = 3_000;

pub type Draw = fn(&mut Random) -> (Aim, Given);

pub fn drawn(draw: Draw, seed: u64) -> Vec<(Aim, Given)> {
    let mut random = Random::new(seed);
    (0..COUNT).map(|_| draw(&mut random)).collect()
}

pub fn a_seed_fixes_the_calls(draw: Draw) {
    assert_eq!(drawn(draw, 7), drawn(draw, 7));
    assert_ne!(drawn(draw, 7), drawn(draw, 8));
}

/// Words that are fitting: commands, options, kinds of files.
pub fn every_word_is_drawn(draw: Draw, words: &[&str]) {
    let fitting = drawn(draw, 2);
    let fitting = fitting.iter().filter(|(aim, _)| *aim == Aim::Done);
    let calls: Vec<&Given> = fitting.map(|(_, given)| given).collect();
    for word in words {
        let met = calls.iter().filter(|g| g.words.contains(&word.into()));
        assert!(met.count() > 2, "{word}");
    }
}
