//! Texts as they are written: values in pieces, characters in buffers of some lengths, the values ended and the rest of the text
//! drained. Tests hold the whole to a text that is written in one go.

use super::parts::{pattern, room};
use super::text_parts::{put, write};
use crate::call::Call;
use crate::page::Page;
use random::Random;
use second::text::{Stage, Writer};

const SEED: u64 = 17;
const DRAWN: usize = 60;

pub fn written(page: &mut Page) {
    page.group(
        "written",
        "texts of 0 to 65 values written in pieces, ended and drained, buffers of 0 and more octets; 60 texts from seed 17",
    );
    for count in [0, 1, 31, 32, 33, 64, 65] {
        let values = pattern(0x9B, 0x4D, count);
        for (piece, lengths) in [
            (count, [200].as_slice()),
            (count, &[65]),
            (count, &[0, 64]),
            (32, &[3]),
        ] {
            in_turn(page, &values, piece, lengths);
        }
    }
    for count in [0, 1, 31, 32, 33] {
        let values = pattern(0x58, 0x6F, count);
        in_turn(page, &values, 5, &[1]);
        in_turn(page, &values, 7, &[1, 0, 4, 2]);
    }
    one_at_a_time(page);
    let mut random = Random::new(SEED);
    for _ in 0..DRAWN {
        drawn(page, &mut random);
    }
}

/// Buffers of these lengths, again and again.
fn in_turn(page: &mut Page, values: &[u8], piece: usize, lengths: &[usize]) {
    let mut lengths = lengths.iter().copied().cycle();
    whole(page, values, piece, || lengths.next().expect("no end"));
}

/// All lines of one text. The values end as soon as they are taken, whatever of their text is still due.
fn whole(page: &mut Page, values: &[u8], piece: usize, mut octets: impl FnMut() -> usize) {
    let pieces = values.chunks(piece.max(1));
    let begun = pieces.fold(Writer::default(), |writer, piece| {
        put(page, writer, piece, &mut octets)
    });
    page.ask(Call::EndValues(begun));
    let mut writer = begun.end();
    while writer.stage != Stage::Done {
        let buffer = room(octets());
        page.ask(write(writer, &[], buffer.clone()));
        writer = writer.write(&[], &mut buffer.clone()).writer;
    }
}

/// Two characters for each value, which is all there is to write until the line is full.
fn one_at_a_time(page: &mut Page) {
    for count in [2, 33] {
        whole(page, &pattern(0xF0, 0x21, count), 1, || 2);
    }
}

fn drawn(page: &mut Page, random: &mut Random) {
    let count = random.pick(&[0, 1, 2, 3, 5, 8, 13, 32, 40, 66]);
    let values = random.bytes(count);
    let piece = 1 + random.below(40) as usize;
    let most = random.pick(&[4, 12, 70]);
    whole(page, &values, piece, || random.below(most) as usize);
}
