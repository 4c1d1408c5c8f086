//! Every field of the state at its ends and one past them, by itself, in encode and in decode. Every word of DQ and of SR is
//! put out of range in each of its three parts.

use super::parts::{decode, encode, octets, room, samples};
use crate::due::Due;
use crate::page::Page;
use second::state::State;

/// Puts a value into one field.
type Put<T> = fn(&mut State, T);

pub fn ranges(page: &mut Page) {
    page.group(
        "ranges",
        "every field of the state at its ends, one past them, and far out",
    );
    scales(page);
    words(page);
    floats(page);
    bits(page);
}

/// The state of core 2 with the field at each value, which is in range or not.
fn field<T: Copy + std::fmt::Display>(
    page: &mut Page,
    name: &str,
    put: Put<T>,
    inside: &[T],
    outside: &[T],
) {
    for (values, sound) in [(inside, true), (outside, false)] {
        for &value in values {
            let mut state = State::reset(2);
            put(&mut state, value);
            page.note(format!("{name} {value}"));
            both(page, state, sound);
        }
    }
}

fn both(page: &mut Page, state: State, sound: bool) {
    let due = |octets| {
        if sound {
            Due::Done(octets)
        } else {
            Due::Refused(4)
        }
    };
    page.due(due(7), encode(state, 0, 1, 5, samples(8), room(7)));
    let frame = octets(0x68 + state.core % 8, 1, 7);
    page.due(due(8), decode(state, 1, frame, room(8)));
}

fn scales(page: &mut Page) {
    field(
        page,
        "YU",
        |s, v| s.yu = v,
        &[544, 545, 5_119, 5_120],
        &[0, 543, 5_121, 65_535],
    );
    let outside = [
        0,
        34_815,
        327_681,
        1 << 19,
        65_536 + 34_816,
        1 << 31,
        u32::MAX,
    ];
    let (inside, outside) = outside
        .iter()
        .partition::<Vec<u32>, _>(|&&v| (34_816..=327_680).contains(&v));
    let inside = [&[34_816, 34_817, 327_679, 327_680], &inside[..]].concat();
    field(page, "YL", |s, v| s.yl = v, &inside, &outside);
    field(page, "DMS", |s, v| s.dms = v, &[0, 3_584], &[3_585, 65_535]);
    field(
        page,
        "DML",
        |s, v| s.dml = v,
        &[0, 14_336],
        &[14_337, 65_535],
    );
    field(page, "AP", |s, v| s.ap = v, &[0, 512], &[513, 65_535]);
}

/// Any word is in range.
fn words(page: &mut Page) {
    let any = [1, 12_288, 32_767, 32_768, 65_535];
    let puts: [(&str, Put<u16>); 8] = [
        ("A1", |s, v| s.a1 = v),
        ("A2", |s, v| s.a2 = v),
        ("B1", |s, v| s.b[0] = v),
        ("B2", |s, v| s.b[1] = v),
        ("B3", |s, v| s.b[2] = v),
        ("B4", |s, v| s.b[3] = v),
        ("B5", |s, v| s.b[4] = v),
        ("B6", |s, v| s.b[5] = v),
    ];
    for (name, put) in puts {
        field(page, name, put, &any, &[]);
    }
}

/// Mantissa 32 and 63, exponent 14, sign; and mantissa 31 and 0 with and without the others, and a twelfth bit.
const SOUND: [u16; 4] = [32, 63, 14 * 64 + 32, 1_024 + 14 * 64 + 63];
const FIFTEEN: [u16; 3] = [15 * 64 + 32, 15 * 64 + 63, 1_024 + 15 * 64 + 32];
const NEVER: [u16; 7] = [0, 31, 64, 15 * 64 + 31, 1_024, 2_048 + 32, 32_768 + 32];

fn floats(page: &mut Page) {
    let past: [(&str, Put<u16>); 6] = [
        ("DQ1", |s, v| s.dq[0] = v),
        ("DQ2", |s, v| s.dq[1] = v),
        ("DQ3", |s, v| s.dq[2] = v),
        ("DQ4", |s, v| s.dq[3] = v),
        ("DQ5", |s, v| s.dq[4] = v),
        ("DQ6", |s, v| s.dq[5] = v),
    ];
    for (name, put) in past {
        field(page, name, put, &SOUND, &[&FIFTEEN[..], &NEVER].concat());
    }
    let signals: [(&str, Put<u16>); 2] = [("SR1", |s, v| s.sr1 = v), ("SR2", |s, v| s.sr2 = v)];
    for (name, put) in signals {
        field(page, name, put, &[&SOUND[..], &FIFTEEN].concat(), &NEVER);
    }
}

fn bits(page: &mut Page) {
    let puts: [(&str, Put<u16>); 3] = [
        ("PK1", |s, v| s.pk1 = v),
        ("PK2", |s, v| s.pk2 = v),
        ("TD", |s, v| s.td = v),
    ];
    for (name, put) in puts {
        field(page, name, put, &[0, 1], &[2, 3, 255, 256, 257, 65_535]);
    }
    field(
        page,
        "core",
        |s, v| s.core = v,
        &[2_u8, 3, 4],
        &[0, 1, 5, 6, 7, 8, 130, 255],
    );
    let octets = [0_u8, 1, 127, 128, 254, 255];
    field(page, "number", |s, v| s.number = v, &octets, &[]);
}
