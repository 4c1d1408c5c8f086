//! Calls of the tool drawn one after the other from a start, so that a difference can be met again.

use super::aim::Aim;
use super::draft::Draft;
use super::edit::{edit, OF_TOOL};
use crate::run::Given;
use random::Random;

pub fn draw(random: &mut Random) -> (Aim, Given) {
    let aim = Aim::draw(random);
    let mut draft = Draft::draw(random);
    match aim {
        Aim::Done => (aim, draft.given()),
        Aim::Fault => {
            draft.spoil(random);
            // With two faults it shows which is met first.
            if random.below(4) == 0 {
                draft.spoil(random);
            }
            (aim, draft.given())
        }
        Aim::WrongWords => (aim, with_wrong_words(draft, random)),
    }
}

/// One name for two files, wrong numbers, slips, or the first and the last together.
fn with_wrong_words(mut draft: Draft, random: &mut Random) -> Given {
    let kind = random.below(10);
    if kind < 3 {
        draft.tangle(random);
    }
    let miscounted = (3..6).contains(&kind) && draft.miscount(random);
    let mut given = draft.given();
    if kind > 1 && !miscounted {
        edit(&mut given.words, &OF_TOOL, random);
    }
    given
}

#[cfg(test)]
mod tests {
    use super::*;
    use crate::fuzz::drawn::{self, COUNT};
    use std::collections::BTreeSet;

    fn drawn(seed: u64) -> Vec<(Aim, Given)> {
        drawn::drawn(draw, seed)
    }

    #[test]
    fn a_seed_fixes_the_calls() {
        drawn::a_seed_fixes_the_calls(draw);
    }

    #[test]
    fn every_aim_is_met_often() {
        let drawn = drawn(1);
        for aim in [Aim::Done, Aim::Fault, Aim::WrongWords] {
            let met = drawn.iter().filter(|(found, _)| *found == aim).count();
            assert!(met > COUNT / 5, "{aim:?}: {met}");
        }
    }

    #[test]
    fn every_part_of_the_grammar_is_drawn() {
        let words = [
            "encode", "drop", "decode", "inspect", "mu", "a", "linear", "-v", "-states", "-most",
            "-list", "-", "in", "./160", "./-", "out", "./8", "s", "./7", "w", "320",
        ];
        drawn::every_word_is_drawn(draw, &words);
    }

    /// The word behind LAW, WIDTH, CORE and SAMPLES, and the first bits of what goes in.
    #[test]
    fn both_editions_are_asked_for_and_come_in() {
        let calls: Vec<Given> = drawn(5).into_iter().map(|(_, given)| given).collect();
        let asked = |given: &Given| {
            let place = given.words.iter().position(|word| word == "encode")?;
            given.words.get(place + 5).cloned()
        };
        for (edition, word) in [(1, "1"), (2, "2")] {
            let met = calls.iter().filter(|g| asked(g) == Some(word.into()));
            assert!(met.count() > COUNT / 50, "{edition}");
            let first = |g: &&Given| g.input.first().is_some_and(|octet| octet >> 6 == edition);
            let decoded = calls.iter().filter(|g| g.words.contains(&"decode".into()));
            assert!(decoded.filter(first).count() > COUNT / 50, "{edition}");
        }
    }

    #[test]
    fn most_calls_are_small_and_all_can_be_stored() {
        let calls = drawn(3);
        let size =
            |given: &Given| given.input.len() + given.files.values().map(Vec::len).sum::<usize>();
        let small = calls.iter().filter(|(_, given)| size(given) < 2_000);
        assert!(small.count() > COUNT * 9 / 10);
        let words: BTreeSet<_> = calls.iter().flat_map(|(_, given)| &given.words).collect();
        let blank = |octet: &u8| octet.is_ascii_whitespace();
        assert!(!words.iter().any(|w| w.as_encoded_bytes().iter().any(blank)));
    }

    /// As IN it would have no end.
    #[test]
    fn the_full_device_stands_in_no_call_with_a_slip() {
        for (_, given) in drawn(4).iter().filter(|(aim, _)| *aim == Aim::WrongWords) {
            assert!(!given.words.contains(&"/dev/full".into()));
        }
    }
}
