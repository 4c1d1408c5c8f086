//! Calls of `sequences` drawn one after the other from a start, so that a difference can be met again.

use super::draft::Draft;
use crate::fuzz::aim::Aim;
use crate::fuzz::edit::{edit, OF_SEQUENCES};
use crate::run::Given;
use random::Random;

pub fn draw(random: &mut Random) -> (Aim, Given) {
    let aim = Aim::draw(random);
    let mut draft = Draft::draw(random);
    if aim == Aim::Fault {
        draft.spoil(random);
        // With two faults it shows which is met first.
        if random.below(4) == 0 {
            draft.spoil(random);
        }
    }
    let mut given = draft.given();
    if aim == Aim::WrongWords {
        edit(&mut given.words, &OF_SEQUENCES, random);
    }
    (aim, given)
}

#[cfg(test)]
mod tests {
    use super::*;
    use crate::fuzz::drawn::{self, COUNT};

    #[test]
    fn a_seed_fixes_the_calls() {
        drawn::a_seed_fixes_the_calls(draw);
    }

    #[test]
    fn every_part_of_the_grammar_is_drawn() {
        let words = [
            "read", "write", "encode", "decode", "mu", "a", "2", "3", "4", "5", "h", "./160",
            "./-h",
        ];
        drawn::every_word_is_drawn(draw, &words);
    }

    /// Most are short enough to be looked at, and some longer than a read.
    #[test]
    fn calls_are_short_and_long_and_all_can_be_stored() {
        let calls = drawn::drawn(draw, 3);
        let longer = |least| calls.iter().filter(|(_, g)| g.input.len() > least).count();
        assert!(longer(1_000) < COUNT / 10);
        assert!(longer(5_000) > 20 && longer(10_000) == 0);
        let mut words = calls.iter().flat_map(|(_, given)| &given.words);
        let blank = |octet: &u8| octet.is_ascii_whitespace();
        assert!(!words.any(|w| w.as_encoded_bytes().iter().any(blank)));
    }
}
