//! Readers and writers with any numbers in them, held to the rules of their states one by one as these are put down, in wide
//! numbers and with nothing left out. Every column and every character is tried.

use second::text::{Reader, Refusal, Refused, Stage, Verdict, Writer};

const WORD: u128 = 1 << 64;
const LINES: [u64; 5] = [0, 1 << 32, u64::MAX - 65, u64::MAX - 2, u64::MAX];
const OCTETS: [u8; 5] = [0, 1, 16, 254, 255];

fn value_of(character: u8) -> Option<u128> {
    match character {
        b'0'..=b'9' => Some(u128::from(character) - 48),
        b'A'..=b'F' => Some(u128::from(character) - 55),
        b'a'..=b'f' => Some(u128::from(character) - 87),
        _ => None,
    }
}

/// The reader behind one character, and what is handed out; a refusal stands in the reader.
fn due_read(r: Reader, character: u8) -> (Reader, Option<u8>) {
    let (line, column) = (u128::from(r.line), u128::from(r.column));
    let refused = |refusal: Refusal| {
        let place = ((line + column) % WORD) as u64;
        let verdict = Verdict::Refused(Refused { refusal, place });
        (Reader { verdict, ..r }, None)
    };
    if r.verdict != Verdict::Sound {
        return (r, None);
    }
    if character == 10 {
        if column % 2 == 1 || column < 2 {
            return refused(Refusal::BadCharacter);
        }
        let mut next = r;
        next.line = ((line + column + 1) % WORD) as u64;
        next.column = 0;
        return (next, None);
    }
    match value_of(character) {
        None => refused(Refusal::BadCharacter),
        Some(_) if column >= 64 => refused(Refusal::LineTooLong),
        Some(d) => due_digit(r, d),
    }
}

fn due_digit(r: Reader, d: u128) -> (Reader, Option<u8>) {
    let plus = |value: u8| ((u128::from(r.sum) + u128::from(value)) % 255) as u8;
    let value = ((16 * u128::from(r.high) + d) % 256) as u8;
    let mut next = r;
    next.column = r.column + 1;
    if r.column.is_multiple_of(2) {
        next.high = d as u8;
        if !r.holds {
            return (next, None);
        }
        next.sum = plus(r.held);
        next.holds = false;
        return (next, Some(r.held));
    }
    if r.column == 1 {
        next.held = value;
        next.holds = true;
        return (next, None);
    }
    next.sum = plus(value);
    (next, Some(value))
}

fn due_end(r: Reader) -> Verdict {
    let refused = |refusal, place| Verdict::Refused(Refused { refusal, place });
    if r.verdict != Verdict::Sound {
        return r.verdict;
    }
    if r.column == 0 && r.holds {
        if u16::from(r.held) == u16::from(r.sum) % 255 {
            return Verdict::Sound;
        }
        let place = ((u128::from(r.line) + WORD - 3) % WORD) as u64;
        return refused(Refusal::WrongRemainder, place);
    }
    refused(Refusal::MissingRemainder, r.line)
}

fn readers(column: u8) -> Vec<Reader> {
    let mut all = Vec::new();
    for line in LINES {
        for (high, held) in OCTETS.into_iter().zip([0, 255, 1, 254, 77]) {
            for sum in [0, 1, 254, 255] {
                for holds in [false, true] {
                    let verdict = Verdict::Sound;
                    all.push(Reader {
                        verdict,
                        line,
                        column,
                        high,
                        holds,
                        held,
                        sum,
                    });
                }
            }
        }
    }
    all
}

fn hold_step(reader: Reader, character: u8) {
    let (next, value) = due_read(reader, character);
    let refused = next.verdict != Verdict::Sound;
    for room in [0, 2] {
        let mut buffer = [0xEE; 2];
        let answer = reader.read(&[character], &mut buffer[..room]);
        let found = (answer.reader, answer.taken, answer.written);
        match value {
            Some(_) if room == 0 => assert_eq!(found, (reader, 0, 0)),
            Some(value) => {
                assert_eq!(found, (next, 1, 1), "{reader:?} {character}");
                assert_eq!(buffer, [value, 0xEE]);
            }
            None => assert_eq!(found, (next, usize::from(!refused), 0), "{reader:?}"),
        }
    }
}

#[test]
fn every_column_and_character() {
    for column in 0..=255 {
        for reader in readers(column) {
            for character in [
                0, 9, 10, 11, 47, 48, 57, 58, 64, 65, 70, 71, 96, 97, 102, 103,
            ] {
                hold_step(reader, character);
            }
            assert_eq!(reader.end(), due_end(reader), "{reader:?}");
        }
        let plain = Reader {
            column,
            high: 7,
            ..Reader::default()
        };
        (0..=255).for_each(|character| hold_step(plain, character));
    }
}

#[test]
fn a_refused_reader_stays_as_it_is() {
    for refusal in Refusal::ALL {
        for place in LINES {
            for column in [0, 1, 2, 64, 255] {
                for mut reader in readers(column) {
                    reader.verdict = Verdict::Refused(Refused { refusal, place });
                    let answer = reader.read(b"00\nG", &mut [0; 4]);
                    let found = (answer.reader, answer.taken, answer.written);
                    assert_eq!(found, (reader, 0, 0));
                    assert_eq!(reader.end(), reader.verdict);
                }
            }
        }
    }
}

/// The next character that is due and the writer behind it, with whether the value was taken.
fn due_written(w: Writer, value: Option<u8>) -> Option<(u8, Writer, bool)> {
    let hexadecimal = |digit: u8| if digit < 10 { 48 + digit } else { 55 + digit };
    let (odd, column) = (w.column % 2 == 1, u16::from(w.column));
    if w.stage == Stage::Done {
        return None;
    }
    let mut next = w;
    if odd {
        next.column = ((column + 1) % 256) as u8;
        return Some((hexadecimal(w.value % 16), next, false));
    }
    next.column = 0;
    if w.stage == Stage::Remainder {
        next.stage = Stage::Done;
        return Some((10, next, false));
    }
    if column >= 64 || (w.stage == Stage::Closing && column != 0) {
        return Some((10, next, false));
    }
    next.column = w.column + 1;
    if w.stage == Stage::Values {
        next.value = value?;
        next.sum = ((u16::from(w.sum) + u16::from(next.value)) % 255) as u8;
        return Some((hexadecimal(next.value / 16), next, true));
    }
    next.value = (u16::from(w.sum) % 255) as u8;
    next.stage = Stage::Remainder;
    Some((hexadecimal(next.value / 16), next, false))
}

fn hold_character(writer: Writer, values: &[u8]) {
    let mut buffer = [0xEE; 2];
    let answer = writer.write(values, &mut buffer[..1]);
    let found = (answer.writer, answer.taken, answer.written, buffer);
    let due = match due_written(writer, values.first().copied()) {
        None => (writer, 0, 0, [0xEE; 2]),
        Some((character, next, taken)) => (next, usize::from(taken), 1, [character, 0xEE]),
    };
    assert_eq!(found, due, "{writer:?}");
}

#[test]
fn every_column_and_stage_of_a_writer() {
    for stage in Stage::ALL {
        for column in 0..=255 {
            for value in (0..=255).step_by(5) {
                for sum in OCTETS {
                    let writer = Writer {
                        stage,
                        column,
                        value,
                        sum,
                    };
                    hold_character(writer, &[]);
                    for value in OCTETS {
                        hold_character(writer, &[value]);
                    }
                    let closing = Writer {
                        stage: Stage::Closing,
                        ..writer
                    };
                    let values = stage == Stage::Values;
                    assert_eq!(writer.end(), if values { closing } else { writer });
                }
            }
        }
    }
}
