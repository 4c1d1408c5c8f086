//! Rust source cut into tokens, as far as the second codec's sources need it: comments and white space
//! give none, and raw strings are not known.

#[derive(Clone, Copy, Debug, PartialEq, Eq)]
pub enum Kind {
    Word,
    Number,
    Mark,
    /// A string, a character or a lifetime: nothing inside it is looked at.
    Text,
}

#[derive(Clone, Copy, Debug, PartialEq, Eq)]
pub struct Token {
    pub kind: Kind,
    pub start: usize,
    pub end: usize,
}

/// Marks of more than one character, the longest first, so that the first that fits is the one meant.
const LONG_MARKS: [&str; 23] = [
    "<<=", ">>=", "..=", "::", "->", "=>", "==", "!=", "<=", ">=", "&&", "||", "<<", ">>", "+=",
    "-=", "*=", "/=", "%=", "^=", "&=", "|=", "..",
];

pub fn tokens(text: &str) -> Vec<Token> {
    let mut found = Vec::new();
    let mut start = 0;
    while let Some((kind, length)) = piece(&text[start..]) {
        let end = start + length;
        found.extend(kind.map(|kind| Token { kind, start, end }));
        start = end;
    }
    found
}

/// What the text begins with, and how long that is; no kind for what is passed over.
fn piece(text: &str) -> Option<(Option<Kind>, usize)> {
    let first = text.chars().next()?;
    Some(match first {
        _ if text.starts_with("//") => (None, text.find('\n').unwrap_or(text.len())),
        _ if text.starts_with("/*") => (None, text.find("*/").map_or(text.len(), |at| at + 2)),
        _ if first.is_whitespace() => (None, first.len_utf8()),
        '"' => (Some(Kind::Text), quoted(text, '"')),
        '\'' => (Some(Kind::Text), character_or_lifetime(text)),
        _ if first.is_ascii_digit() => (Some(Kind::Number), word_length(text)),
        _ if is_of_word(first) => (Some(Kind::Word), word_length(text)),
        _ => (Some(Kind::Mark), mark_length(text, first)),
    })
}

fn is_of_word(letter: char) -> bool {
    letter.is_alphanumeric() || letter == '_'
}

fn word_length(text: &str) -> usize {
    text.find(|letter| !is_of_word(letter))
        .unwrap_or(text.len())
}

fn mark_length(text: &str, first: char) -> usize {
    let long = LONG_MARKS.iter().find(|&&mark| text.starts_with(mark));
    long.map_or(first.len_utf8(), |mark| mark.len())
}

/// The length with both quotation marks; a backslash takes the next character with it.
fn quoted(text: &str, quote: char) -> usize {
    let mut letters = text.char_indices().skip(1);
    while let Some((at, letter)) = letters.next() {
        if letter == quote {
            return at + quote.len_utf8();
        }
        if letter == '\\' {
            letters.next();
        }
    }
    text.len()
}

fn character_or_lifetime(text: &str) -> usize {
    let mut inside = text.chars().skip(1);
    if inside.next() == Some('\\') || inside.next() == Some('\'') {
        quoted(text, '\'')
    } else {
        1 + word_length(&text[1..])
    }
}

#[cfg(test)]
mod tests {
    use super::*;

    fn cut(text: &str) -> Vec<(Kind, &str)> {
        let cut = |token: Token| (token.kind, &text[token.start..token.end]);
        tokens(text).into_iter().map(cut).collect()
    }

    #[test]
    fn words_numbers_and_marks() {
        let expected = [
            (Kind::Word, "x"),
            (Kind::Mark, ">>="),
            (Kind::Number, "0x7F"),
            (Kind::Mark, ";"),
            (Kind::Number, "1_024"),
            (Kind::Mark, "..="),
            (Kind::Word, "a1"),
            (Kind::Mark, "."),
            (Kind::Number, "0"),
        ];
        assert_eq!(cut("x >>= 0x7F; 1_024..=a1.0"), expected);
    }

    #[test]
    fn comments_give_nothing() {
        assert_eq!(cut("// 1 + 1\n/* 2 */ 3 // 4"), [(Kind::Number, "3")]);
    }

    #[test]
    fn strings_characters_and_lifetimes_are_whole() {
        for text in ["\"a \\\" 1 + 1\"", "'+'", "'\\''", "'\\n'", "'static"] {
            assert_eq!(cut(text), [(Kind::Text, text)]);
        }
        assert_eq!(cut("&'a str")[1], (Kind::Text, "'a"));
    }
}
