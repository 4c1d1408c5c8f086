//! However a text is cut and whatever room there is, reading in steps gives what reading the whole gives, and writing in steps
//! what writing the whole gives.

mod support;

use random::Random;
use second::text::{read_whole, write_whole, Reader, Reading, Stage, Verdict, Writer};
use support::texts::{any, garbage, good, nearly_good, values};

const FILLED: u8 = 0xEE;
const MANY: usize = 200;

/// One piece, with buffers of this length; where one of no octets is no help, one of one octet.
fn read_piece(mut reader: Reader, piece: &[u8], room: usize, values: &mut Vec<u8>) -> Reader {
    let mut rest = piece;
    let mut length = room;
    loop {
        let mut buffer = vec![FILLED; length];
        let answer = reader.read(rest, &mut buffer);
        assert!(buffer[answer.written..].iter().all(|&o| o == FILLED));
        values.extend(&buffer[..answer.written]);
        rest = &rest[answer.taken..];
        reader = answer.reader;
        if rest.is_empty() || reader.verdict != Verdict::Sound {
            return reader;
        }
        assert_eq!(answer.written, length, "it stopped with room left");
        length = room.max(1);
    }
}

fn read_pieces<'a>(pieces: impl IntoIterator<Item = &'a [u8]>, room: usize) -> (Vec<u8>, Verdict) {
    let mut values = Vec::new();
    let read = |reader, piece: &[u8]| read_piece(reader, piece, room, &mut values);
    let reader = pieces.into_iter().fold(Reader::default(), read);
    (values, reader.end())
}

fn due(text: &[u8]) -> (Vec<u8>, Verdict) {
    let whole = read_whole(text);
    let verdict = whole.refused.map_or(Verdict::Sound, Verdict::Refused);
    (whole.values, verdict)
}

fn hold_in_pieces(text: &[u8]) {
    let due = due(text);
    let shown = String::from_utf8_lossy(text);
    for place in 0..=text.len() {
        let (front, back) = text.split_at(place);
        let found = read_pieces([front, back], [0, 1, 2, 3, MANY][place % 5]);
        assert_eq!(found, due, "{shown:?} cut at {place}");
    }
    for length in [1, 2, 3, 7, 64, 65] {
        for room in [0, 1, 2, 3, MANY] {
            let found = read_pieces(text.chunks(length), room);
            assert_eq!(found, due, "{shown:?} in pieces of {length}");
        }
    }
}

#[test]
fn in_steps_as_in_one_go() {
    let mut random = Random::new(31);
    for _ in 0..10_000 {
        hold_in_pieces(&any(&mut random));
    }
}

/// At the place of each value stand its two digits, and places rise.
#[test]
fn places_are_those_of_the_values() {
    let mut random = Random::new(32);
    for _ in 0..20_000 {
        let text = any(&mut random);
        let Reading { values, places, .. } = read_whole(&text);
        assert_eq!(values.len(), places.len());
        assert!(places.windows(2).all(|two| two[0] + 2 <= two[1]));
        for (value, place) in values.iter().zip(places) {
            let digits = &text[place as usize..][..2];
            let written = format!("{value:02x}").into_bytes();
            assert_eq!(digits.to_ascii_lowercase(), written);
        }
    }
}

#[test]
fn the_draws_meet_every_verdict() {
    let mut random = Random::new(33);
    let mut met = [0; 5];
    for _ in 0..10_000 {
        met[usize::from(due(&any(&mut random)).1.number())] += 1;
    }
    assert!(met.iter().all(|&count| count > 100), "{met:?}");
    let sound = |text: Vec<u8>| read_whole(&text).refused.is_none();
    assert!((0..1_000).all(|_| sound(good(&mut random))));
    let count = |draw: fn(&mut Random) -> Vec<u8>, random: &mut Random| {
        (0..1_000).filter(|_| sound(draw(random))).count()
    };
    assert!(count(nearly_good, &mut random) < 500);
    assert!(count(garbage, &mut random) < 500);
}

#[test]
fn what_is_written_is_read_again() {
    let mut random = Random::new(34);
    for count in (0..200).chain([1_000, 5_000]) {
        let values = random.bytes(count);
        let Reading {
            values: found,
            refused,
            ..
        } = read_whole(&write_whole(&values));
        assert_eq!((found, refused), (values, None));
    }
}

/// All of what is due with these values, in buffers of this length.
fn write_piece(mut writer: Writer, values: &[u8], room: usize, text: &mut Vec<u8>) -> Writer {
    let mut rest = values;
    loop {
        let mut buffer = vec![FILLED; room];
        let answer = writer.write(rest, &mut buffer);
        assert!(buffer[answer.written..].iter().all(|&o| o == FILLED));
        text.extend(&buffer[..answer.written]);
        rest = &rest[answer.taken..];
        writer = answer.writer;
        if answer.written < room {
            assert!(rest.is_empty(), "it stopped with values left");
            return writer;
        }
    }
}

fn written(values: &[u8], piece: usize, room: usize) -> Vec<u8> {
    let mut text = Vec::new();
    let write = |writer, values: &[u8]| write_piece(writer, values, room, &mut text);
    let writer = values.chunks(piece).fold(Writer::default(), write);
    let last = write_piece(writer.end(), &[], room, &mut text);
    assert_eq!((last.stage, last.column), (Stage::Done, 0));
    text
}

#[test]
fn written_in_steps_as_in_one_go() {
    let mut random = Random::new(35);
    let counts = [0, 1, 2, 31, 32, 33, 63, 64, 65, 96, 97];
    let fixed: Vec<Vec<u8>> = counts.map(|count| random.bytes(count)).to_vec();
    let drawn: Vec<Vec<u8>> = (0..1_000).map(|_| values(&mut random)).collect();
    for values in fixed.into_iter().chain(drawn) {
        let due = write_whole(&values);
        for room in [1, 2, 3, 5, 64, 65, 1_000] {
            for piece in [1, 2, 3, 31, 32, 33, 1_000] {
                assert_eq!(written(&values, piece, room), due);
            }
        }
    }
}

#[test]
fn a_buffer_of_no_octets_takes_nothing_and_changes_nothing() {
    let mut random = Random::new(36);
    let mut text = Vec::new();
    let values = random.bytes(40);
    let mut writer = write_piece(Writer::default(), &values, 7, &mut text);
    for _ in 0..2 {
        let answer = writer.write(&values, &mut []);
        assert_eq!((answer.taken, answer.written), (0, 0));
        assert_eq!(answer.writer, writer);
        writer = writer.end();
    }
}
