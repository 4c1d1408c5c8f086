//! Changes to a text.

/// A line feed becomes the two characters that end a line on the ITU's machines.
pub fn with_returns(text: &[u8]) -> Vec<u8> {
    let line_ends = |&c: &u8| if c == b'\n' { vec![b'\r', c] } else { vec![c] };
    text.iter().flat_map(line_ends).collect()
}

pub fn with_small_letters(text: &[u8]) -> Vec<u8> {
    text.to_ascii_lowercase()
}

pub fn without_last_line(text: &[u8]) -> Vec<u8> {
    let body = text.strip_suffix(b"\n").unwrap_or(text);
    let last = body.iter().rposition(|&c| c == b'\n');
    text[..last.map_or(0, |feed| feed + 1)].to_vec()
}

/// A digit becomes another one.
pub fn with_other_digit(text: &[u8], place: usize) -> Vec<u8> {
    let mut text = text.to_vec();
    text[place] = if text[place] == b'0' { b'1' } else { b'0' };
    text
}

#[cfg(test)]
mod tests {
    use super::*;

    #[test]
    fn texts_are_changed() {
        assert_eq!(with_returns(b"0A\n0A\n"), b"0A\r\n0A\r\n");
        assert_eq!(with_small_letters(b"0A\n"), b"0a\n");
        assert_eq!(without_last_line(b"0102\n03\n"), b"0102\n");
        assert_eq!(without_last_line(b"00\n"), b"");
        assert_eq!(with_other_digit(b"0102\n", 3), b"0100\n");
        assert_eq!(with_other_digit(b"0102\n", 0), b"1102\n");
    }
}
