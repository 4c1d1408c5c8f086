//! The fields of a line: numbers in decimal digits, octets in pairs of hexadecimal digits with `-` for none, linear samples in
//! fours of them, a state as 26 numbers between commas. Each value is written in one way only, so that a line says the same when
//! it is written again.

use second::state::State;

/// How many numbers a state has.
const NUMBERS: usize = 26;

/// Digits only, and no leading zero.
pub fn number<T: TryFrom<u64>>(text: &str) -> Option<T> {
    let digits = !text.is_empty() && text.bytes().all(|c| c.is_ascii_digit());
    let plain = digits && (text == "0" || !text.starts_with('0'));
    let value: u64 = text.parse().ok().filter(|_| plain)?;
    T::try_from(value).ok()
}

pub fn octets(text: &str) -> Option<Vec<u8>> {
    match text {
        "-" => Some(Vec::new()),
        "" => None,
        _ => text.as_bytes().chunks(2).map(octet).collect(),
    }
}

fn octet(pair: &[u8]) -> Option<u8> {
    match pair {
        [high, low] => Some(16 * digit(*high)? + digit(*low)?),
        _ => None,
    }
}

fn digit(letter: u8) -> Option<u8> {
    match letter {
        b'0'..=b'9' => Some(letter - b'0'),
        b'a'..=b'f' => Some(letter - b'a' + 10),
        _ => None,
    }
}

pub fn write_octets(octets: &[u8]) -> String {
    if octets.is_empty() {
        return "-".to_string();
    }
    octets.iter().map(|octet| format!("{octet:02x}")).collect()
}

/// Two octets each, the most significant first, in two's complement.
pub fn samples(text: &str) -> Option<Vec<i16>> {
    let octets = octets(text)?;
    let (pairs, rest) = octets.as_chunks();
    let read = || pairs.iter().map(|&pair| i16::from_be_bytes(pair));
    rest.is_empty().then(|| read().collect())
}

pub fn octets_of(samples: &[i16]) -> Vec<u8> {
    samples.iter().flat_map(|s| s.to_be_bytes()).collect()
}

pub fn write_samples(samples: &[i16]) -> String {
    write_octets(&octets_of(samples))
}

pub fn state(text: &str) -> Option<State> {
    let parts: Vec<&str> = text.split(',').collect();
    if parts.len() != NUMBERS {
        return None;
    }
    let word = |place: usize| number::<u16>(parts[place]);
    let six = |from: usize| -> Option<[u16; 6]> {
        let words: Option<Vec<u16>> = (from..from + 6).map(word).collect();
        words?.try_into().ok()
    };
    Some(State {
        yu: word(0)?,
        yl: number(parts[1])?,
        dms: word(2)?,
        dml: word(3)?,
        ap: word(4)?,
        a1: word(5)?,
        a2: word(6)?,
        b: six(7)?,
        dq: six(13)?,
        sr1: word(19)?,
        sr2: word(20)?,
        pk1: word(21)?,
        pk2: word(22)?,
        td: word(23)?,
        core: number(parts[24])?,
        number: number(parts[25])?,
    })
}

pub fn write_state(s: &State) -> String {
    let texts: Vec<String> = s.numbers().iter().map(u32::to_string).collect();
    texts.join(",")
}

#[cfg(test)]
mod tests {
    use super::*;

    #[test]
    fn numbers_have_one_form_and_a_greatest() {
        assert_eq!([number("0"), number("255")], [Some(0_u8), Some(255)]);
        for text in [
            "",
            "00",
            "01",
            "+1",
            "-1",
            " 1",
            "256",
            "x",
            "99999999999999999999",
        ] {
            assert_eq!(number::<u8>(text), None, "{text}");
        }
        assert_eq!(number("4294967295"), Some(u32::MAX));
        assert_eq!(number::<u32>("4294967296"), None);
    }

    #[test]
    fn octets_have_one_form() {
        assert_eq!(octets("-"), Some(vec![]));
        assert_eq!(octets("00ff3a"), Some(vec![0, 255, 0x3A]));
        for text in ["", "0", "000", "FF", "0g", "--", "+1"] {
            assert_eq!(octets(text), None, "{text}");
        }
        assert_eq!(write_octets(&[0, 255]), "00ff");
    }

    #[test]
    fn samples_have_one_form() {
        assert_eq!(samples("-"), Some(vec![]));
        let some = vec![0, -1, 8_191, -8_192, 32_767, -32_768];
        let text = "0000ffff1fffe0007fff8000";
        assert_eq!(samples(text), Some(some.clone()));
        assert_eq!(write_samples(&some), text);
        assert_eq!(write_samples(&[]), "-");
        for text in ["", "0", "00", "000", "00000", "000000", "FFFF", "-1", "--"] {
            assert_eq!(samples(text), None, "{text}");
        }
    }

    #[test]
    fn a_state_is_read_as_it_is_written() {
        let text =
            "65535,4294967295,0,1,2,3,4,5,6,7,8,9,10,11,12,13,14,15,16,17,18,65533,65534,65535,254,255";
        assert_eq!(write_state(&state(text).unwrap()), text);
        for wrong in [
            text.replace(",0,", ","),
            text.replace(",0,", ",0,0,"),
            text.replace(",0,", ",,"),
            text.replace(",254", ",256"),
            text.replace(",255", ",256"),
            text.replace(",255", ""),
            text.replace("4294967295", "4294967296"),
        ] {
            assert_eq!(state(&wrong), None, "{wrong}");
        }
        assert_eq!(state(&text.replace("65535,429", "65536,429")), None);
    }
}
