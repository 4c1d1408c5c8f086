//! A list of widths in a file.

use filter::files::Source;
use filter::line::quoted;
use filter::stop::Stop;
use filter::words::Word;

const MOST: usize = 65_535;

pub fn read(word: &Word) -> Result<Vec<u8>, Stop> {
    let octets = Source::file("the list", word)?.piece(MOST + 1)?;
    widths(&octets)
        .map_err(|what| Stop([b"list ", quoted(word).as_slice(), what.as_bytes()].concat()))
}

/// The widths, or what follows the list's name in the line that says what is wrong.
fn widths(octets: &[u8]) -> Result<Vec<u8>, String> {
    if octets.len() > MOST {
        return Err(format!(": longer than {MOST} octets"));
    }
    let mut widths = Vec::new();
    for (number, line) in (1..).zip(octets.split(|&octet| octet == b'\n')) {
        let words = line.split(|octet| b" \t\r".contains(octet));
        for word in words.filter(|word| !word.is_empty()) {
            match word {
                [digit @ b'2'..=b'5'] => widths.push(digit - b'0'),
                _ => return Err(format!(", line {number}: no width from 2 to 5")),
            }
        }
    }
    if widths.is_empty() {
        return Err(": no width in it".to_string());
    }
    Ok(widths)
}

#[cfg(test)]
mod tests {
    use super::*;

    #[test]
    fn widths_stand_between_blanks() {
        assert_eq!(widths(b"\n2\t3 \r\n5 4"), Ok(vec![2, 3, 5, 4]));
    }

    #[test]
    fn what_is_wrong_is_told_with_its_line() {
        for (text, wrong) in [
            ("", ": no width in it"),
            (" \n\t\r\n", ": no width in it"),
            ("2\n\n6", ", line 3: no width from 2 to 5"),
            ("1", ", line 1: no width from 2 to 5"),
            ("2 33\n", ", line 1: no width from 2 to 5"),
            ("2\n3,4", ", line 2: no width from 2 to 5"),
        ] {
            assert_eq!(widths(text.as_bytes()), Err(wrong.to_string()), "{text}");
        }
    }

    #[test]
    fn the_longest_list_is_read() {
        let longest = [b"3".as_slice(), &[b' '; MOST - 1]].concat();
        assert_eq!(widths(&longest), Ok(vec![3]));
        let longer = [b"x".as_slice(), &[b' '; MOST]].concat();
        let wrong = ": longer than 65535 octets".to_string();
        assert_eq!(widths(&longer), Err(wrong));
    }
}
