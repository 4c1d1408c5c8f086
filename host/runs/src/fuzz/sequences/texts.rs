//! Texts of sequences as anyone may write them, and damage to them.

use random::Random;
use second::text::{DIVISOR, LINE_VALUES};

/// The text of these values, in lines of any length and with letters of either case.
pub fn text(random: &mut Random, values: &[u8]) -> Vec<u8> {
    let sum: u64 = values.iter().copied().map(u64::from).sum();
    let remainder = [(sum % u64::from(DIVISOR)) as u8];
    let mut text = body(random, values);
    text.extend(line(random, &remainder));
    text
}

/// Full lines as a writer makes them, lines of one length, or each of its own.
fn body(random: &mut Random, values: &[u8]) -> Vec<u8> {
    let most = LINE_VALUES as u64;
    let length = random.within(1, most) as usize;
    let kind = random.below(3);
    let mut text = Vec::new();
    let mut rest = values;
    while !rest.is_empty() {
        let due = match kind {
            0 => LINE_VALUES,
            1 => length,
            _ => random.within(1, most) as usize,
        };
        let (first, others) = rest.split_at(due.min(rest.len()));
        text.extend(line(random, first));
        rest = others;
    }
    text
}

fn line(random: &mut Random, values: &[u8]) -> Vec<u8> {
    let digits: String = values
        .iter()
        .map(|value| match random.below(4) {
            0 => format!("{value:02x}"),
            _ => format!("{value:02X}"),
        })
        .collect();
    (digits + "\n").into_bytes()
}

/// Characters that stand beside the digits in their code, and others that a text might have.
const NEAR: &[u8] = b"/:@G`g \t\r\n\0xX-";
const DIGITS: &[u8] = b"0123456789ABCDEFabcdef";

/// Damage of one kind. Not all of it is noticed: a line feed may stand behind any value.
pub fn damage(random: &mut Random, text: &mut Vec<u8>) {
    if text.is_empty() {
        text.push(random.pick(NEAR));
        return;
    }
    let place = random.below(text.len() as u64) as usize;
    match random.below(10) {
        0 => text[place] = random.byte(),
        1 => text[place] = random.pick(NEAR),
        2 => text[place] = random.pick(DIGITS),
        3 => {
            text.remove(place);
        }
        4 => text.insert(place, random.pick(DIGITS)),
        5 => text.insert(place, random.pick(NEAR)),
        6 => text.truncate(place),
        7 => join(text, place),
        8 => spoil_remainder(random, text),
        _ => text.extend(
            random
                .pick(&["\n", "00\n", "0", "00", "\r\n", "0000\n"])
                .bytes(),
        ),
    }
}

/// Two lines become one, from this place on.
fn join(text: &mut Vec<u8>, from: usize) {
    let feed = text[from..].iter().position(|&c| c == b'\n');
    if let Some(feed) = feed {
        text.remove(from + feed);
    }
}

/// The last line goes, or is another one.
fn spoil_remainder(random: &mut Random, text: &mut Vec<u8>) {
    text.truncate(text.len().saturating_sub("00\n".len()));
    if random.below(2) == 0 {
        let any = random.byte();
        let value = random.pick(&[0xFF, 0, any]);
        text.extend(line(random, &[value]));
    }
}

/// Characters that make no text, or octets of any value.
pub fn garbage(random: &mut Random) -> Vec<u8> {
    let count = random.below(200) as usize;
    if random.below(3) == 0 {
        return random.bytes(count);
    }
    (0..count)
        .map(|_| match random.below(20) {
            0 => b'\n',
            _ => random.pick(DIGITS),
        })
        .collect()
}

#[cfg(test)]
mod tests {
    use super::*;
    use second::text::{read_whole, Refusal};
    use std::collections::BTreeSet;

    #[test]
    fn a_text_is_one_of_its_values() {
        let mut random = Random::new(1);
        for _ in 0..200 {
            let count = random.below(200) as usize;
            let values = random.bytes(count);
            let reading = read_whole(&text(&mut random, &values));
            assert_eq!((reading.values, reading.refused), (values, None));
        }
    }

    #[test]
    fn damage_is_refused_by_every_name() {
        let mut random = Random::new(2);
        let mut met = BTreeSet::new();
        let mut sound = 0;
        for _ in 0..400 {
            let values = random.bytes(70);
            let mut text = text(&mut random, &values);
            damage(&mut random, &mut text);
            match read_whole(&text).refused {
                Some(refused) => {
                    met.insert(refused.refusal);
                }
                None => sound += 1,
            }
        }
        assert_eq!(met.len(), Refusal::ALL.len());
        assert!(sound < 60, "{sound}");
    }
}
