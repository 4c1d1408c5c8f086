//! What is not rewritten: attributes, tests, imports, types and declarations. A change there either
//! breaks the build or changes nothing that is computed.

use crate::source::Source;
use std::ops::Range;

pub fn left_out(source: &Source) -> Vec<Range<usize>> {
    let mut found = Vec::new();
    let mut place = 0;
    while place < source.count() {
        let end = end_of_left_out(source, place).min(source.count());
        if end > place {
            found.push(place..end);
        }
        place = end.max(place + 1);
    }
    found
}

/// The place behind what begins here and is left out; the place itself where nothing is.
fn end_of_left_out(source: &Source, place: usize) -> usize {
    let first = |words: &[&str]| source.first_outside(place, words);
    match source.word(place) {
        "#" => behind_attribute(source, place),
        "use" | "type" => first(&[";"]) + 1,
        "struct" | "enum" => behind_item(source, place),
        "fn" | "impl" => first(&["{"]),
        "const" if source.after(place) != "fn" => first(&["="]),
        "let" => first(&["=", ";"]),
        _ => place,
    }
}

fn behind_attribute(source: &Source, place: usize) -> usize {
    let end = source.closing(source.first_outside(place, &["["])) + 1;
    let is_test = source.word(place + 2) == "cfg" && source.word(place + 4) == "test";
    if is_test {
        behind_item(source, end)
    } else {
        end
    }
}

fn behind_item(source: &Source, place: usize) -> usize {
    let end = source.first_outside(place, &["{", ";"]);
    match source.word(end) {
        "{" => source.closing(end) + 1,
        _ => end + 1,
    }
}

#[cfg(test)]
mod tests {
    use super::*;

    fn live(text: &str) -> String {
        let source = Source::new(text);
        let words: Vec<&str> = source.live_places().map(|at| source.word(at)).collect();
        words.join(" ")
    }

    #[test]
    fn declarations_are_left_out_and_what_they_hold_is_not() {
        assert_eq!(live("use a::{b, c};\nf(1);"), "f ( 1 ) ;");
        assert_eq!(
            live("type A = [u8; 2];\nconst B: [u8; 2] = [3, 4];"),
            "= [ 3 , 4 ] ;"
        );
        assert_eq!(live("fn f(a: [u8; 2]) -> [u8; 2] { a }"), "{ a }");
        assert_eq!(live("const fn f(a: &[u8]) -> u8 { 5 }"), "const { 5 }");
        assert_eq!(live("let (a1, a2): (u8, [u8; 2]) = b;"), "= b ;");
        assert_eq!(
            live("pub struct S { a: [u8; 6] } enum E { A = 1 } 7"),
            "pub 7"
        );
        assert_eq!(live("impl Trait for S<'_> { 8 }"), "{ 8 }");
    }

    #[test]
    fn attributes_and_tests_are_left_out() {
        assert_eq!(live("#[derive(Clone)]\nstruct S(u8);\n9"), "9");
        assert_eq!(
            live("#![allow(a)] 1 #[cfg(test)] mod tests { #[test] fn a() { 2 } } 3"),
            "1 3"
        );
    }
}
