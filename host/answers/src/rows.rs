//! The replies as the rules' tables have them: the rows of each call in its own order, and the first that applies. Whether a state
//! is in range is the second codec's word; the group `ranges` has it by hand.

use crate::call::{Call, Decode, DecodeLinear, Drop, Encode, EncodeLinear};
use random::states::PAIRS;
use second::state::State;

/// A reply's number, and whether its row applies.
type Row = (u8, bool);

/// The number that is due for a public call of the codec; none for the other calls, which have no replies.
pub fn due_reply(call: &Call) -> Option<u8> {
    let rows = match call {
        Call::Reset(core) => vec![(1, !(2..=4).contains(core))],
        Call::Encode(c) => of_encode(c),
        Call::EncodeLinear(c) => of_encode_linear(c),
        Call::Decode(c) => of_decode(c),
        Call::DecodeLinear(c) => of_decode_linear(c),
        Call::Drop(c) => of_drop(c),
        _ => return None,
    };
    let applies = rows.into_iter().find(|row| row.1);
    Some(applies.map_or(0, |row| row.0))
}

fn of_encode(c: &Encode) -> Vec<Row> {
    let count = c.samples.len();
    let mut rows = vec![of_state(&c.state), of_law(c.law)];
    rows.extend(of_request(&c.state, c.edition, c.width, count));
    rows.push(of_frame_s_room(c.edition, c.width, count, c.out.len()));
    rows
}

/// No row of the law, and one of the samples behind that of their count.
fn of_encode_linear(c: &EncodeLinear) -> Vec<Row> {
    let count = c.samples.len();
    let off_scale = |sample: &i16| *sample < -8_192 || *sample > 8_191;
    let mut rows = vec![of_state(&c.state)];
    rows.extend(of_request(&c.state, c.edition, c.width, count));
    rows.push((11, c.samples.iter().any(off_scale)));
    rows.push(of_frame_s_room(c.edition, c.width, count, c.out.len()));
    rows
}

/// Of the frame that an encoder is asked for.
fn of_request(state: &State, edition: u8, width: u8, samples: usize) -> [Row; 3] {
    let is_count = samples.is_multiple_of(8) && (8..=320).contains(&samples);
    [
        (5, !is_edition(edition)),
        (1, !PAIRS.contains(&(width, state.core))),
        (2, !is_count),
    ]
}

fn of_frame_s_room(edition: u8, width: u8, samples: usize, room: usize) -> Row {
    (3, room < due_length(edition, width, samples / 8))
}

fn of_decode(c: &Decode) -> Vec<Row> {
    let mut rows = vec![of_state(&c.state), of_law(c.law)];
    rows.extend(of_received(&c.state, &c.frame, c.out.len()));
    rows
}

/// The buffer is counted in samples.
fn of_decode_linear(c: &DecodeLinear) -> Vec<Row> {
    let mut rows = vec![of_state(&c.state)];
    rows.extend(of_received(&c.state, &c.frame, c.out.len()));
    rows
}

/// Of a frame that a decoder with room for so many samples is given.
fn of_received(state: &State, frame: &[u8], room: usize) -> Vec<Row> {
    let header = Header::of(frame);
    let other_number = header.edition == 2 && header.third != state.number;
    let mut rows = of_frame(frame);
    rows.extend([
        (7, header.core != state.core),
        (10, other_number),
        (3, room < 8 * header.groups),
    ]);
    rows
}

fn of_drop(c: &Drop) -> Vec<Row> {
    let header = Header::of(&c.frame);
    let octets = due_length(header.edition, c.width, header.groups);
    let mut rows = of_frame(&c.frame);
    rows.extend([
        (8, c.width < header.core || c.width > header.width),
        (3, c.out.len() < octets),
    ]);
    rows
}

fn of_state(state: &State) -> Row {
    (4, !state.in_range())
}

fn of_law(law: u8) -> Row {
    (9, law > 1)
}

fn of_frame(frame: &[u8]) -> Vec<Row> {
    let header = Header::of(frame);
    let octets = due_length(header.edition, header.width, header.groups);
    vec![
        (5, frame.len() < 2 || !is_edition(header.edition)),
        (1, !PAIRS.contains(&(header.width, header.core))),
        (2, !(1..=40).contains(&header.groups)),
        (6, frame.len() != octets),
    ]
}

/// An octet that is not there is 0: a row that would see it has one before it that applies.
struct Header {
    edition: u8,
    width: u8,
    core: u8,
    groups: usize,
    third: u8,
}

impl Header {
    fn of(frame: &[u8]) -> Header {
        let octet = |place: usize| frame.get(place).copied().unwrap_or(0);
        Header {
            edition: octet(0) / 64,
            width: octet(0) / 8 % 8,
            core: octet(0) % 8,
            groups: usize::from(octet(1)),
            third: octet(2),
        }
    }
}

fn is_edition(edition: u8) -> bool {
    edition == 1 || edition == 2
}

fn due_length(edition: u8, width: u8, groups: usize) -> usize {
    let header = if edition == 2 { 3 } else { 2 };
    header + usize::from(width) * groups
}

#[cfg(test)]
mod tests {
    use super::*;

    #[test]
    fn the_first_row_that_applies_is_given() {
        for (line, due) in [
            ("reset 4", 0),
            ("reset 5", 1),
            ("drop 9201a5ff00 2 0000000000", 0),
            ("drop 9201a5ff00 2 00000000", 3),
            ("drop 9201a5ff00 3 00000000", 8),
            ("drop 9201 2 -", 6),
            ("drop 5200 9 -", 2),
            ("drop 5101 9 -", 1),
            ("drop 1201 9 -", 5),
            ("drop 52 2 -", 5),
        ] {
            let call = Call::read(line).unwrap();
            assert_eq!(due_reply(&call), Some(due), "{line}");
        }
        assert_eq!(due_reply(&Call::read("level 0 0").unwrap()), None);
    }

    const STATE: &str = "544,34816,0,0,0,0,0,0,0,0,0,0,0,32,32,32,32,32,32,32,32,0,0,0,2,7";

    #[test]
    fn a_linear_sample_s_row_stands_between_2_and_3() {
        let with = |sample: &str, count: usize| sample.repeat(count);
        for (fields, due) in [
            (format!("1 2 {} 00000000", with("e000", 8)), 0),
            (format!("1 2 {} 00000000", with("1fff", 8)), 0),
            (format!("1 2 {} 000000", with("1fff", 8)), 3),
            (format!("1 2 {}2000 000000", with("0000", 7)), 11),
            (format!("1 2 dfff{} 000000", with("0000", 7)), 11),
            (format!("1 2 {} -", with("2000", 7)), 2),
            (format!("1 6 {} -", with("2000", 7)), 1),
            ("3 6 8000 -".to_string(), 5),
            ("1 2 - -".to_string(), 2),
        ] {
            let call = Call::read(&format!("encode_linear {STATE} {fields}")).unwrap();
            assert_eq!(due_reply(&call), Some(due), "{fields}");
        }
    }

    #[test]
    fn a_linear_decoder_s_room_is_counted_in_samples() {
        for (frame, room, due) in [
            ("5201ff00", 8, 0),
            ("5201ff00", 7, 3),
            ("5201ff00", 4, 3),
            ("920107ff00", 8, 0),
            ("920108ff00", 7, 10),
            ("5b01ff00aa", 7, 7),
            ("5201ff", 7, 6),
        ] {
            let out = if room == 0 {
                "-".to_string()
            } else {
                "0000".repeat(room)
            };
            let call = Call::read(&format!("decode_linear {STATE} {frame} {out}")).unwrap();
            assert_eq!(due_reply(&call), Some(due), "{frame} {room}");
        }
    }
}
