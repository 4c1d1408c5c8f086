//! A source with its tokens: what stands beside a token, where a bracket closes, and which tokens are
//! out of bounds for rewrites.

use crate::left_out::left_out;
use crate::scanner::{tokens, Kind, Token};
use std::ops::Range;

pub struct Source<'a> {
    pub text: &'a str,
    tokens: Vec<Token>,
    live: Vec<bool>,
}

impl<'a> Source<'a> {
    pub fn new(text: &'a str) -> Source<'a> {
        let tokens = tokens(text);
        let live = vec![true; tokens.len()];
        let mut source = Source { text, tokens, live };
        for range in left_out(&source) {
            source.live[range].fill(false);
        }
        source
    }

    pub fn count(&self) -> usize {
        self.tokens.len()
    }

    pub fn live_places(&self) -> impl Iterator<Item = usize> + '_ {
        (0..self.count()).filter(|&place| self.live[place])
    }

    /// The token's text, or nothing beyond either end.
    pub fn word(&self, place: usize) -> &'a str {
        self.tokens
            .get(place)
            .map_or("", |t| &self.text[t.start..t.end])
    }

    pub fn before(&self, place: usize) -> &'a str {
        self.word(place.wrapping_sub(1))
    }

    pub fn after(&self, place: usize) -> &'a str {
        self.word(place + 1)
    }

    pub fn is(&self, place: usize, kind: Kind) -> bool {
        self.tokens
            .get(place)
            .is_some_and(|token| token.kind == kind)
    }

    /// The octets from the first of these tokens to the last.
    pub fn octets(&self, places: Range<usize>) -> Range<usize> {
        self.tokens[places.start].start..self.tokens[places.end - 1].end
    }

    pub fn touches_before(&self, place: usize) -> bool {
        place > 0 && self.tokens[place - 1].end == self.tokens[place].start
    }

    pub fn touches_after(&self, place: usize) -> bool {
        place + 1 < self.count() && self.touches_before(place + 1)
    }

    /// An operator between two operands, since rustfmt puts none beside white space otherwise.
    pub fn stands_apart(&self, place: usize) -> bool {
        !self.touches_before(place) && !self.touches_after(place)
    }

    /// Where the bracket that opens here closes.
    pub fn closing(&self, opening: usize) -> usize {
        let mut depth = 0;
        for place in opening..self.count() {
            match self.word(place) {
                "(" | "[" | "{" => depth += 1,
                ")" | "]" | "}" => depth -= 1,
                _ => {}
            }
            if depth == 0 {
                return place;
            }
        }
        self.count()
    }

    /// The first of these words from a place on that stands in no bracket opened since; or the end.
    pub fn first_outside(&self, from: usize, words: &[&str]) -> usize {
        let mut place = from;
        while place < self.count() && !words.contains(&self.word(place)) {
            place = match self.word(place) {
                "(" | "[" | "{" => self.closing(place) + 1,
                _ => place + 1,
            };
        }
        place
    }

    /// The bracket that is open at a place, or nothing.
    pub fn innermost(&self, place: usize) -> &'a str {
        let mut depth = 0;
        for earlier in (0..place).rev() {
            match self.word(earlier) {
                "(" | "[" | "{" if depth == 0 => return self.word(earlier),
                "(" | "[" | "{" => depth -= 1,
                ")" | "]" | "}" => depth += 1,
                _ => {}
            }
        }
        ""
    }
}

#[cfg(test)]
mod tests {
    use super::*;

    #[test]
    fn brackets_are_matched_and_passed_over() {
        let source = Source::new("if f(|x| { 1 }) { 2 } else { 3 }");
        let opening = source.first_outside(1, &["{"]);
        assert_eq!(source.word(opening + 1), "2");
        assert_eq!(source.after(source.closing(opening)), "else");
        assert_eq!(source.innermost(opening + 1), "{");
        assert_eq!(source.innermost(opening), "");
    }

    #[test]
    fn what_stands_apart() {
        let source = Source::new("a - b\n    && -c");
        let apart: Vec<&str> = (0..source.count())
            .filter(|&place| source.is(place, Kind::Mark) && source.stands_apart(place))
            .map(|place| source.word(place))
            .collect();
        assert_eq!(apart, ["-", "&&"]);
    }
}
