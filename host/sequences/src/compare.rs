//! The second codec's lines beside another codec's.

use crate::lines::STATES_DIFFER;
use crate::names;

#[derive(Clone, Debug, PartialEq, Eq)]
pub struct Difference {
    pub name: String,
    pub ours: String,
    pub theirs: String,
}

const NO_LINE: &str = "(no line)";

/// The first place where the lists differ. Lines of the other text that do not begin with the name
/// of a sequence are passed over. A line that says that states differ is a difference even where
/// both say so.
pub fn first_difference(ours: &[String], other_text: &str) -> Option<Difference> {
    let theirs = sequence_lines(other_text);
    let count = ours.len().max(theirs.len());
    let line = |place: usize| {
        let our = ours.get(place).map_or(NO_LINE, String::as_str);
        let their = theirs.get(place).copied().unwrap_or(NO_LINE);
        (our, their)
    };
    (0..count)
        .map(line)
        .find(|(our, their)| our != their || our.ends_with(STATES_DIFFER))
        .map(|(our, their)| Difference {
            name: first_word(if our == NO_LINE { their } else { our }).to_string(),
            ours: our.to_string(),
            theirs: their.to_string(),
        })
}

fn sequence_lines(text: &str) -> Vec<&str> {
    let all_names: Vec<String> = names::all().iter().map(names::Sequence::name).collect();
    text.lines()
        .filter(|line| all_names.iter().any(|name| name == first_word(line)))
        .collect()
}

fn first_word(line: &str) -> &str {
    line.split(' ').next().unwrap_or_default()
}
