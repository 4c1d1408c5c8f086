//! The words LAW, WIDTH and CORE.

use crate::line::{shown, Line};
use crate::words::{number, wrong, Word, Words};
use second::g711::Law;
use second::replies::is_pair;

pub fn law(words: &mut Words) -> Result<Law, Line> {
    let word = words.due("LAW")?;
    match word.as_slice() {
        b"mu" => Ok(Law::Mu),
        b"a" => Ok(Law::A),
        _ => Err(wrong("no law", word)),
    }
}

/// WIDTH and CORE, which are judged together.
pub fn pair(words: &mut Words) -> Result<(u8, u8), Line> {
    let (width, x) = octet(words, "WIDTH")?;
    let (core, y) = octet(words, "CORE")?;
    if !is_pair(x, y) {
        let what = b"no pair of WIDTH and CORE: '".as_slice();
        return Err([what, shown(width), b" ", shown(core), b"'"].concat());
    }
    Ok((x, y))
}

/// A number and its word. One that is no octet is beyond every limit, and so is 255.
pub fn octet<'a>(words: &mut Words<'a>, name: &str) -> Result<(&'a Word, u8), Line> {
    let word = words.due(name)?;
    Ok((word, number(word)?.try_into().unwrap_or(u8::MAX)))
}

#[cfg(test)]
mod tests {
    use super::*;

    fn read(words: &str) -> Result<(u8, u8), String> {
        let words: Vec<Word> = words.split(' ').map(Word::from).collect();
        let found = pair(&mut Words::new(&words));
        found.map_err(|line| String::from_utf8_lossy(&line).into_owned())
    }

    #[test]
    fn there_are_nine_pairs() {
        let all = (0..=9).flat_map(|x| (0..=9).map(move |y| (x, y)));
        let taken: Vec<(u8, u8)> = all
            .filter(|(x, y)| read(&format!("{x} {y}")) == Ok((*x, *y)))
            .collect();
        let due = [
            (2, 2),
            (3, 2),
            (3, 3),
            (4, 2),
            (4, 3),
            (4, 4),
            (5, 2),
            (5, 3),
            (5, 4),
        ];
        assert_eq!(taken, due);
    }

    #[test]
    fn a_number_is_no_smaller_one() {
        for words in ["258 2", "5 258", "18446744073709551621 2"] {
            let due = format!("no pair of WIDTH and CORE: '{words}'");
            assert_eq!(read(words), Err(due));
        }
    }
}
