//! How a pair is stored, in the form of a must-fail edit, with paths from `crates/`:
//!
//! ```text
//! What is wrong, in a line.
//! file: predictor/specs/Tone.antt
//! old: ltb 8 YLINT
//! new: ltb 7 YLINT
//! ```
//!
//! A `file` holds for the replacements after it. What is old has to stand in the file exactly once.

use std::collections::BTreeMap;
use std::path::{Path, PathBuf};
use tool::folder::{self, files, name};

#[derive(Debug, PartialEq, Eq)]
pub struct Pair {
    pub name: String,
    pub what: String,
    pub edits: Vec<Edit>,
}

#[derive(Debug, PartialEq, Eq)]
pub struct Edit {
    pub file: String,
    pub old: String,
    pub new: String,
}

/// All pairs of a folder, in the order of their names.
pub fn read_all(folder: &Path) -> Result<Vec<Pair>, String> {
    files(folder, "pair")?
        .iter()
        .map(|place| parse(&name(place), &read(place)?))
        .collect()
}

pub fn parse(name: &str, text: &str) -> Result<Pair, String> {
    let told = |line: &str| format!("{name}: out of place: {line}");
    let (mut what, mut file, mut old) = (Vec::new(), None, None);
    let mut edits = Vec::new();
    for line in text.lines() {
        let (word, rest) = line.split_once(": ").unwrap_or((line, ""));
        match (word, &file, old.take()) {
            ("file", _, None) => file = Some(rest.to_string()),
            ("old", Some(_), None) => old = Some(rest.to_string()),
            ("new", Some(file), Some(old)) => edits.push(Edit {
                file: file.clone(),
                old,
                new: rest.to_string(),
            }),
            (_, None, None) => what.push(line),
            _ => return Err(told(line)),
        }
    }
    if edits.is_empty() || old.is_some() {
        return Err(format!("{name}: no whole replacement"));
    }
    Ok(Pair {
        name: name.to_string(),
        what: what.join(" "),
        edits,
    })
}

impl Edit {
    pub fn replaced(&self, text: &str) -> Result<String, String> {
        match text.matches(&self.old).count() {
            1 => Ok(text.replacen(&self.old, &self.new, 1)),
            count => Err(format!(
                "{}: '{}' stands there {count} times",
                self.file, self.old
            )),
        }
    }
}

impl Pair {
    /// The files below `crates` as the pair makes them.
    pub fn wrong_files(&self, crates: &Path) -> Result<BTreeMap<PathBuf, String>, String> {
        let mut wrong = BTreeMap::new();
        for edit in &self.edits {
            let place = crates.join(&edit.file);
            let text = match wrong.remove(&place) {
                Some(text) => text,
                None => read(&place)?,
            };
            wrong.insert(place, edit.replaced(&text)?);
        }
        Ok(wrong)
    }
}

fn read(place: &Path) -> Result<String, String> {
    let octets = folder::read(place)?;
    String::from_utf8(octets).map_err(|error| format!("{}: {error}", place.display()))
}

#[cfg(test)]
mod tests {
    use super::*;

    #[test]
    fn a_pair_is_read() {
        let text = "What is\nwrong.\nfile: a/x\nold: 1\nnew: 2\nold: b: c\nnew: d\nfile: y\nold: 3\nnew: 4\n";
        let pair = parse("it", text).unwrap();
        assert_eq!(pair.what, "What is wrong.");
        let told: Vec<String> = pair
            .edits
            .iter()
            .map(|e| format!("{} {}>{}", e.file, e.old, e.new))
            .collect();
        assert_eq!(told, ["a/x 1>2", "a/x b: c>d", "y 3>4"]);
    }

    #[test]
    fn a_half_pair_is_an_error() {
        for text in [
            "",
            "what",
            "file: x\nold: 1\n",
            "file: x\nnew: 1\n",
            "file: x\nold: 1\nold: 2\nnew: 3\n",
            "file: x\nold: 1\nnew: 2\nmore",
        ] {
            assert!(parse("it", text).is_err(), "{text}");
        }
    }

    #[test]
    fn what_is_old_stands_once() {
        let edit = |old: &str| Edit {
            file: "x".to_string(),
            old: old.to_string(),
            new: "9".to_string(),
        };
        assert_eq!(edit("1").replaced("1 2 2"), Ok("9 2 2".to_string()));
        assert!(edit("2").replaced("1 2 2").is_err() && edit("3").replaced("1 2 2").is_err());
    }

    /// What a pair makes wrong may have moved since it was stored.
    #[test]
    fn every_stored_pair_fits_the_crates() {
        let pairs = read_all(Path::new("stored")).unwrap();
        for pair in pairs {
            let wrong = pair.wrong_files(Path::new("../../crates"));
            assert!(wrong.is_ok(), "{}: {wrong:?}", pair.name);
        }
    }
}
