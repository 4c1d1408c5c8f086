//! Writers with any numbers in them, as no values make them: every stage with columns at their ends, with and without values, in
//! buffers of 0 to 6 octets.

use super::parts::room;
use super::text_parts::write;
use crate::call::Call;
use crate::due::Due;
use crate::page::Page;
use second::text::{Stage, Writer};

const COLUMNS: [u8; 12] = [0, 1, 2, 3, 62, 63, 64, 65, 66, 253, 254, 255];
const VALUES: [u8; 5] = [0x00, 0x5A, 0xA5, 0xFF, 0x0F];
const SUMS: [u8; 4] = [255, 254, 0, 77];

pub fn writers(page: &mut Page) {
    page.group(
        "writers",
        "any numbers in a writer: every stage, columns at their ends, with and without values, buffers of 0 to 6 octets",
    );
    at_the_edges(page);
    remainders(page);
    sums(page);
}

fn at_the_edges(page: &mut Page) {
    let (mut value, mut sum) = (VALUES.iter().cycle(), SUMS.iter().cycle());
    for stage in Stage::ALL {
        for column in COLUMNS {
            for length in 0..=6 {
                let writer = Writer {
                    stage,
                    column,
                    value: *value.next().expect("no end"),
                    sum: *sum.next().expect("no end"),
                };
                page.ask(write(writer, &[], room(length)));
                page.ask(write(writer, &[0x1C, 0xFE], room(length)));
                if length == 0 {
                    page.ask(Call::EndValues(writer));
                }
            }
        }
    }
}

/// A sum of 255 leaves 00, whether it came so or was handed in.
fn remainders(page: &mut Page) {
    for (sum, text) in [
        (0, "00\n"),
        (1, "01\n"),
        (77, "4D\n"),
        (253, "FD\n"),
        (254, "FE\n"),
        (255, "00\n"),
    ] {
        let writer = Writer {
            stage: Stage::Closing,
            sum,
            ..Writer::default()
        };
        let due = Due::Written(0, text.as_bytes().to_vec());
        page.due(due, write(writer, &[], room(4)));
    }
}

/// A value is taken with its high digit; the sum goes on from whatever it was.
fn sums(page: &mut Page) {
    for sum in [0, 1, 254, 255] {
        for (value, text) in [(0, "0"), (1, "0"), (0xFE, "F"), (0xFF, "F")] {
            let writer = Writer {
                sum,
                ..Writer::default()
            };
            let due = Due::Written(1, text.as_bytes().to_vec());
            page.due(due, write(writer, &[value], room(1)));
        }
    }
}
