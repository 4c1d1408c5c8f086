//! One change to one source, and the name that it keeps when lines move.

use crate::rewrites::{edits, Edit};
use crate::source::Source;
use std::collections::{HashMap, HashSet};
use std::fmt;

/// A mutant's name: the line that is changed, what on it, by what. The place tells apart what stands on
/// the line more than once, or on several lines that are alike; it is counted from 1 through the file.
#[derive(Clone, Debug, PartialEq, Eq, Hash)]
pub struct Identity {
    pub file: String,
    pub line: String,
    pub place: usize,
    pub from: String,
    pub to: String,
}

impl fmt::Display for Identity {
    fn fmt(&self, f: &mut fmt::Formatter) -> fmt::Result {
        writeln!(f, "{}: {}", self.file, self.line)?;
        write!(f, "place {}: `{}` by `{}`", self.place, self.from, self.to)
    }
}

#[derive(Clone, Debug)]
pub struct Mutant {
    pub identity: Identity,
    /// Counted from 1 through all sources; the catalog's to give.
    pub number: usize,
    /// Counted from 1, as an editor does.
    pub line_number: usize,
    edit: Edit,
}

impl Mutant {
    pub fn applied(&self, text: &str) -> String {
        self.edit.applied(text)
    }
}

/// All mutants of a source. Edits that give the same text count once.
pub fn mutants(file: &str, text: &str) -> Vec<Mutant> {
    let mut texts = HashSet::new();
    let mut places = Places::default();
    edits(&Source::new(text))
        .into_iter()
        .filter(|edit| texts.insert(edit.applied(text)))
        .map(|edit| named(file, text, edit, &mut places))
        .collect()
}

fn named(file: &str, text: &str, edit: Edit, places: &mut Places) -> Mutant {
    let start = edit.octets.start;
    let line = line_around(text, start);
    let from = on_one_line(&text[edit.octets.clone()]);
    let identity = Identity {
        file: file.to_string(),
        line: line.to_string(),
        place: places.next(line, &from, start),
        to: on_one_line(&edit.to),
        from,
    };
    Mutant {
        identity,
        number: 0,
        line_number: text[..start].matches('\n').count() + 1,
        edit,
    }
}

fn line_around(text: &str, at: usize) -> &str {
    let start = text[..at].rfind('\n').map_or(0, |end| end + 1);
    text[start..].lines().next().unwrap_or("").trim()
}

/// How often each text was met on each line, and where last: several edits may begin at one octet.
#[derive(Default)]
struct Places(HashMap<(String, String), (usize, Option<usize>)>);

impl Places {
    fn next(&mut self, line: &str, from: &str, start: usize) -> usize {
        let key = (line.to_string(), from.to_string());
        let (count, last) = self.0.entry(key).or_default();
        if *last != Some(start) {
            *count += 1;
            *last = Some(start);
        }
        *count
    }
}

fn on_one_line(text: &str) -> String {
    text.split_whitespace().collect::<Vec<_>>().join(" ")
}

#[cfg(test)]
mod tests {
    use super::*;

    fn names(text: &str) -> Vec<String> {
        let all = mutants("a.rs", text);
        all.iter()
            .map(|mutant| mutant.identity.to_string())
            .collect()
    }

    #[test]
    fn a_name_says_file_line_place_and_change() {
        let expected = [
            "a.rs: a < b;\nplace 1: `<` by `<=`",
            "a.rs: a < b;\nplace 1: `<` by `>`",
        ];
        assert_eq!(names("// so\n    a < b;\n"), expected);
    }

    #[test]
    fn a_name_stays_where_lines_move() {
        assert_eq!(names("a < b;\nc\n"), names("c\n\n  a < b;\n"));
    }

    #[test]
    fn the_same_change_again_has_another_place() {
        let places: Vec<usize> = mutants("a.rs", "0 | 0;\nf();\n0 | 0;\n")
            .iter()
            .filter(|mutant| mutant.identity.from == "0")
            .map(|mutant| mutant.identity.place)
            .collect();
        assert_eq!(places, [1, 2, 3, 4]);
    }

    #[test]
    fn a_place_is_one_whatever_is_made_of_it() {
        let names = names("-1 - a;");
        assert!(names[0].ends_with("place 1: `-` by ``"));
        assert!(names[3].ends_with("place 2: `-` by `+`"));
    }

    #[test]
    fn lines_are_counted_from_one_and_changes_are_applied() {
        let text = "f(\n    1,\n)\n";
        let all = mutants("a.rs", text);
        assert_eq!((all[0].line_number, all.len()), (2, 2));
        assert_eq!(all[0].applied(text), "f(\n    2,\n)\n");
    }

    #[test]
    fn a_change_over_several_lines_has_its_name_on_one() {
        let all = mutants("a.rs", "if a\n    || b\n{\n}\n");
        assert_eq!(all[0].identity.to, "!(a || b)");
        assert_eq!(all[0].identity.line, "if a");
    }
}
