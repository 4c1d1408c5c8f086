//! What is due beside what a program did: the first difference, as a line.

use crate::run::{Done, Files};
use std::ffi::OsStr;

pub fn difference(due: &Done, found: &Done) -> Option<String> {
    octets("standard output", &due.output, &found.output)
        .or_else(|| lines(&due.said, &found.said))
        .or_else(|| status(due.status, found.status))
        .or_else(|| files(&due.files, &found.files))
}

fn octets(what: &str, due: &[u8], found: &[u8]) -> Option<String> {
    let place = first_apart(due, found)?;
    let shown = |octet: Option<&u8>| octet.map_or("the end".to_string(), |o| format!("{o:02x}"));
    Some(format!(
        "{what}, octet {place}: {} is due, {} was written",
        shown(due.get(place)),
        shown(found.get(place))
    ))
}

fn lines(due: &[u8], said: &[u8]) -> Option<String> {
    if !said.is_empty() && !said.ends_with(b"\n") {
        return Some("standard error does not end with a line feed".to_string());
    }
    let [due, said] = [due, said].map(|text| text.split(|&octet| octet == b'\n').collect());
    let (due, said): (Vec<&[u8]>, Vec<&[u8]>) = (due, said);
    let place = first_apart(&due, &said)?;
    let shown = |lines: &[&[u8]]| match lines.get(place) {
        Some(line) if place + 1 < lines.len() => String::from_utf8_lossy(line).into_owned(),
        _ => "nothing".to_string(),
    };
    Some(format!(
        "standard error, line {}:\n  due:  {}\n  said: {}",
        place + 1,
        shown(&due),
        shown(&said)
    ))
}

fn status(due: Option<i32>, found: Option<i32>) -> Option<String> {
    let shown = |status: Option<i32>| status.map_or("a signal".to_string(), |s| s.to_string());
    (due != found).then(|| format!("status: {} is due, {} was given", shown(due), shown(found)))
}

fn files(due: &Files, found: &Files) -> Option<String> {
    let mut names: Vec<_> = due.keys().chain(found.keys()).collect();
    names.sort();
    names
        .into_iter()
        .find_map(|name| file(name, due.get(name), found.get(name)))
}

fn file(name: &OsStr, due: Option<&Vec<u8>>, found: Option<&Vec<u8>>) -> Option<String> {
    let name = format!("file {}", name.to_string_lossy());
    match (due, found) {
        (Some(due), Some(found)) => octets(&name, due, found),
        (Some(_), None) => Some(format!("{name}: it is due, and is not there")),
        (None, _) => Some(format!("{name}: it was left there, and is not due")),
    }
}

fn first_apart<T: PartialEq>(due: &[T], found: &[T]) -> Option<usize> {
    (0..due.len().max(found.len())).find(|&place| due.get(place) != found.get(place))
}

#[cfg(test)]
mod tests {
    use super::*;

    fn done(output: &[u8], said: &str) -> Done {
        Done {
            output: output.to_vec(),
            said: said.as_bytes().to_vec(),
            status: Some(1),
            files: Files::from([("f".into(), vec![7])]),
        }
    }

    fn placed(found: &Done, place: &str) {
        let line = difference(&done(&[1, 2], "a\nb\n"), found).unwrap_or_default();
        assert!(line.contains(place), "{place}: {line}");
    }

    #[test]
    fn the_same_has_no_difference() {
        let one = done(&[1, 2], "a\nb\n");
        assert_eq!(difference(&one, &one), None);
        let silent = Done::default();
        assert_eq!(difference(&silent, &silent), None);
    }

    #[test]
    fn each_difference_is_placed() {
        for (octets, said, place) in [
            (&[1, 3][..], "a\nb\n", "octet 1: 02 is due, 03"),
            (&[1], "a\nb\n", "octet 1: 02 is due, the end"),
            (&[1, 2, 3], "a\nb\n", "octet 2: the end is due"),
            (&[1, 2], "a\nc\n", "line 2:\n  due:  b\n  said: c"),
            (&[1, 2], "a\n", "line 2:\n  due:  b\n  said: nothing"),
            (&[1, 2], "", "line 1:\n  due:  a\n  said: nothing"),
            (&[1, 2], "a\nb\nc\n", "line 3:\n  due:  nothing\n  said: c"),
            (&[1, 2], "a\nb", "line feed"),
        ] {
            placed(&done(octets, said), place);
        }
    }

    #[test]
    fn status_and_files_are_compared_too() {
        for (status, names, place) in [
            (Some(0), &["f"][..], "status: 1 is due, 0 was given"),
            (None, &["f"], "status: 1 is due, a signal was given"),
            (Some(1), &[], "file f: it is due, and is not there"),
            (Some(1), &["f", "g"], "file g: it was left there"),
        ] {
            let files = names.iter().map(|name| (name.into(), vec![7]));
            let found = Done {
                status,
                files: files.collect(),
                ..done(&[1, 2], "a\nb\n")
            };
            placed(&found, place);
        }
        let mut found = done(&[1, 2], "a\nb\n");
        found.files = Files::from([("f".into(), vec![8])]);
        placed(&found, "file f, octet 0: 07 is due, 08 was written");
    }
}
