//! Lines that are no calls with linear samples, and long ones that are, as a part of the group `lines`.

use super::linear_parts::{decode_linear, encode_linear, linear_room, linear_samples};
use super::lines::{unread, STATE};
use super::parts::{octets, room};
use crate::answer::LONGEST;
use crate::due::Due;
use crate::page::Page;
use second::state::State;

pub fn linear_lines(page: &mut Page) {
    words(page);
    encoding(page);
    decoding(page);
    long(page);
}

fn words(page: &mut Page) {
    for word in [
        "encode_",
        "encode_linea",
        "encode_linears",
        "encode-linear",
        "encodelinear",
        "Encode_linear",
        "decode_l",
        "decode_linear=",
        "linear",
    ] {
        page.other(format!("{word} {STATE} - -"), "# line N: no such call");
    }
}

/// There is no law among the fields, and a sample has four digits.
fn encoding(page: &mut Page) {
    for (field, rest) in [
        (3, "300 5 - -"),
        (3, "01 5 - -"),
        (4, "1 300 - -"),
        (5, "1 5 0 -"),
        (5, "1 5 00 -"),
        (5, "1 5 000 -"),
        (5, "1 5 00000 -"),
        (5, "1 5 000000 -"),
        (5, "1 5 FFFF -"),
        (5, "1 5 000g -"),
        (5, "1 5 -1 -"),
        (5, "1 5 0000,0000 -"),
        (5, "1 5  -"),
        (6, "1 5 0000 0"),
        (6, "1 5 0000 000"),
        (6, "1 5 -"),
    ] {
        unread(page, field, &format!("encode_linear {STATE} {rest}"));
    }
    unread(page, 2, "encode_linear");
    unread(page, 2, &format!("encode_linear {STATE},0 1 5 - -"));
    unread(page, 5, &format!("encode_linear {STATE} 0 1 5 - -"));
    page.other(
        format!("encode_linear {STATE} 1 5 - - -"),
        "# line N: too many: field 7",
    );
}

fn decoding(page: &mut Page) {
    for (field, rest) in [
        (3, "0 -"),
        (3, "520 -"),
        (4, "- 00"),
        (4, "- 0000e0"),
        (4, "- E000"),
        (4, "- e00g"),
        (4, "- --"),
        (4, "- "),
        (4, "-"),
    ] {
        unread(page, field, &format!("decode_linear {STATE} {rest}"));
    }
    unread(page, 2, "decode_linear");
    unread(page, 2, "decode_linear 0");
    page.other(
        format!("decode_linear {STATE} - - -"),
        "# line N: too many: field 5",
    );
}

/// As many samples as a line can have, in and out.
fn long(page: &mut Page) {
    let samples = |call: String| (LONGEST - call.len() + 1) / 4;
    let coded = |count| encode_linear(State::reset(2), 1, 5, linear_samples(count), room(7));
    let most = samples(coded(0).to_string());
    page.due(Due::Refused(2), coded(most));
    let decoded = |count| decode_linear(State::reset(2), octets(0x52, 1, 4), linear_room(count));
    let most = samples(decoded(0).to_string());
    page.due(Due::Done(8), decoded(most));
}
