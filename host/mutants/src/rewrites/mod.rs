//! Everything that is changed, one thing at a time: each kind of rewrite is a function that is shown
//! every live token and answers with the edits that begin there.

mod conditions;
mod indices;
mod marks;
mod names;
mod numbers;

use crate::source::Source;
use std::ops::Range;

/// Octets of a source, and what takes their place.
#[derive(Clone, Debug, PartialEq, Eq)]
pub struct Edit {
    pub octets: Range<usize>,
    pub to: String,
}

impl Edit {
    pub fn applied(&self, text: &str) -> String {
        let mut changed = text.to_string();
        changed.replace_range(self.octets.clone(), &self.to);
        changed
    }
}

const KINDS: [fn(&Source, usize) -> Vec<Edit>; 5] = [
    numbers::edits,
    marks::edits,
    names::edits,
    indices::edits,
    conditions::edits,
];

/// In the order of the tokens.
pub fn edits(source: &Source) -> Vec<Edit> {
    source
        .live_places()
        .flat_map(|place| KINDS.map(|kind| kind(source, place)))
        .flatten()
        .collect()
}

/// The token replaced by each of these.
fn replaced<S: ToString>(source: &Source, place: usize, by: &[S]) -> Vec<Edit> {
    let edit = |to: &S| Edit {
        octets: source.octets(place..place + 1),
        to: to.to_string(),
    };
    by.iter().map(edit).collect()
}

#[cfg(test)]
mod tests {
    use super::*;

    /// What one kind makes of a text, as whole texts.
    pub fn made(kind: fn(&Source, usize) -> Vec<Edit>, text: &str) -> Vec<String> {
        let source = Source::new(text);
        let edits = source.live_places().flat_map(|place| kind(&source, place));
        edits.map(|edit| edit.applied(text)).collect()
    }

    #[test]
    fn every_kind_is_asked_at_every_live_place() {
        let text = "use a::a1; if a1 < 2 { b[i] } else { a2 }";
        let source = Source::new(text);
        let made: Vec<String> = edits(&source)
            .iter()
            .map(|edit| edit.applied(text).replace("use a::a1; ", ""))
            .collect();
        let expected = [
            "if !(a1 < 2) { b[i] } else { a2 }",
            "if a2 < 2 { b[i] } else { a2 }",
            "if a1 <= 2 { b[i] } else { a2 }",
            "if a1 > 2 { b[i] } else { a2 }",
            "if a1 < 3 { b[i] } else { a2 }",
            "if a1 < 1 { b[i] } else { a2 }",
            "if a1 < 2 { b[i + 1] } else { a2 }",
            "if a1 < 2 { b[i - 1] } else { a2 }",
            "if a1 < 2 { b[i] } else { a1 }",
        ];
        assert_eq!(made, expected);
    }
}
