//! Which mutants are asked for.

use crate::mutant::{Identity, Mutant};

#[derive(Clone, Debug, PartialEq, Eq)]
pub enum Choice {
    All,
    /// The parts of a path, without the ending.
    Sources(Vec<String>),
    Number(usize),
}

impl Choice {
    /// A number, or a source by its path or the end of it, with or without the ending, or a folder of
    /// sources.
    pub fn of(word: &str) -> Choice {
        match word.parse() {
            Ok(number) => Choice::Number(number),
            Err(_) => Choice::Sources(parts(word)),
        }
    }

    pub fn among(&self, mutants: Vec<Mutant>) -> Vec<Mutant> {
        let is_chosen = |mutant: &Mutant| match self {
            Choice::All => true,
            Choice::Sources(word) => is_named(&mutant.identity.file, word),
            Choice::Number(number) => mutant.number == *number,
        };
        mutants.into_iter().filter(is_chosen).collect()
    }

    /// Whether a mutant of this name would have been chosen, were it there.
    pub fn covers(&self, identity: &Identity, chosen: &[Mutant]) -> bool {
        match self {
            Choice::All => true,
            Choice::Sources(word) => is_named(&identity.file, word),
            Choice::Number(_) => chosen.iter().any(|mutant| mutant.identity == *identity),
        }
    }
}

fn parts(path: &str) -> Vec<String> {
    let without_ending = path.trim_end_matches(".rs");
    without_ending.split('/').map(str::to_string).collect()
}

fn is_named(file: &str, word: &[String]) -> bool {
    let path = parts(file);
    path.starts_with(word) || path.ends_with(word)
}

#[cfg(test)]
mod tests {
    use super::*;
    use crate::mutant::mutants;

    fn four() -> Vec<Mutant> {
        let mut found = mutants("a.rs", "a < b;");
        found.extend(mutants("b.rs", "a + b;"));
        found.extend(mutants("in/b.rs", "a + b;"));
        for (number, mutant) in (1..).zip(&mut found) {
            mutant.number = number;
        }
        found
    }

    fn numbers(word: &str) -> Vec<usize> {
        let chosen = Choice::of(word).among(four());
        chosen.iter().map(|mutant| mutant.number).collect()
    }

    #[test]
    fn a_source_or_a_number_is_chosen() {
        assert_eq!(numbers("a"), [1, 2]);
        assert_eq!(numbers("a.rs"), [1, 2]);
        assert_eq!(numbers("2"), [2]);
        assert_eq!(Choice::All.among(four()).len(), 4);
    }

    #[test]
    fn a_source_in_a_folder_is_chosen_by_its_path_or_the_end_of_it_or_the_folder() {
        for word in ["in/b", "in/b.rs", "in"] {
            assert_eq!(numbers(word), [4], "{word}");
        }
        assert_eq!(numbers("b"), [3, 4]);
    }

    #[test]
    fn a_part_of_a_name_chooses_nothing() {
        for word in ["c", "", "i", "n/b", "in/a", "in/b/c", "a.r"] {
            assert_eq!(numbers(word), [0; 0], "{word}");
        }
    }

    #[test]
    fn names_are_covered_as_mutants_are_chosen() {
        let all = four();
        let (first, last) = (&all[0].identity, &all[3].identity);
        for word in ["b", "in", "in/b"] {
            let sources = Choice::of(word);
            assert!(sources.covers(last, &[]) && !sources.covers(first, &[]));
        }
        let number = Choice::of("1");
        assert!(number.covers(first, &all[..1]) && !number.covers(last, &all[..1]));
        assert!(Choice::All.covers(first, &[]));
    }
}
