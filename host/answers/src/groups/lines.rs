//! Lines that are no calls: each gets a comment with its number and what is wrong with it.

use super::linear_lines;
use super::parts::{encode, room};
use super::text_lines;
use crate::answer::LONGEST;
use crate::call::Call;
use crate::due::Due;
use crate::page::Page;
use second::state::State;

pub const STATE: &str = "544,34816,0,0,0,0,0,0,0,0,0,0,0,32,32,32,32,32,32,32,32,0,0,0,2,1";

pub fn lines(page: &mut Page) {
    page.group(
        "lines",
        "lines that cannot be read, and the longest that can",
    );
    words(page);
    numbers(page);
    octets(page);
    states(page);
    linear_lines::linear_lines(page);
    text_lines::text_lines(page);
    long(page);
    last(page);
}

pub fn unread(page: &mut Page, field: usize, line: &str) {
    page.other(line, format!("# line N: cannot be read: field {field}"));
}

fn words(page: &mut Page) {
    for line in [
        "Reset 2", " reset 2", "resets 2", "rese 2", "=", "-", "reset\t2", "encode=", "e",
    ] {
        page.other(line, "# line N: no such call");
    }
    page.other("reset 2 ", "# line N: too many: field 3");
    page.other("reset 2 = 0 0", "# line N: too many: field 3");
    page.other("drop 5201ff00 2 00000000 1", "# line N: too many: field 5");
    page.other("level 0 0 0", "# line N: too many: field 4");
    page.other("", "");
}

fn numbers(page: &mut Page) {
    for core in [
        "",
        " 2",
        "02",
        "+2",
        "-2",
        "256",
        "2.",
        "2,",
        "x",
        "0x2",
        "4294967298",
        "18446744073709551618",
    ] {
        unread(page, 2, &format!("reset {core}"));
    }
    unread(page, 2, "reset");
    unread(page, 3, "drop 5201ff00 256 -");
    unread(page, 2, "level 2 0");
    unread(page, 3, "level 1 256");
    unread(page, 3, "level 1");
}

fn octets(page: &mut Page) {
    for frame in [
        "", "5", "520", "5G", "5g", "FF", "--", "-0", "52 01", "52,01",
    ] {
        unread(
            page,
            if frame == "52 01" { 3 } else { 2 },
            &format!("drop {frame} x -"),
        );
    }
    unread(page, 4, "drop 5201ff00 2 0");
    unread(page, 4, "drop 5201ff00 2");
}

fn states(page: &mut Page) {
    let fewer = &STATE[4..];
    let more = format!("{STATE},0");
    let edges = [
        STATE.replace("544", "65536"),
        STATE.replace("34816", "4294967296"),
        STATE.replace("0,0,0,2,1", "0,0,65536,2,1"),
        STATE.replace("0,0,0,2,1", "0,0,0,256,1"),
        STATE.replace("0,0,0,2,1", "0,0,0,2,256"),
        STATE.replace("0,0,0,2,1", "0,0,0,2,01"),
        STATE.replace("0,0,0,2,1", "0,0,0,2,"),
        STATE.replace("0,0,0,2,1", "0,0,0,2"),
        STATE.replace("0,0,0,2,1", "0,,0,2,1"),
        STATE.replace("0,0,0,2,1", "0,00,0,2,1"),
        STATE.replace(',', "."),
        format!("{STATE},"),
    ];
    for state in [fewer, &more]
        .into_iter()
        .chain(edges.iter().map(String::as_str))
    {
        unread(page, 2, &format!("encode {state} 0 1 5 ff -"));
        unread(page, 2, &format!("decode {state} 0 ff -"));
    }
    for (field, rest) in [
        (3, "300 1 5 - -"),
        (4, "0 300 5 - -"),
        (4, "0 01 5 - -"),
        (5, "0 1 300 - -"),
        (6, "0 1 5 f -"),
        (7, "0 1 5 - f"),
        (7, "0 1 5 -"),
    ] {
        unread(page, field, &format!("encode {STATE} {rest}"));
    }
    let crowded = format!("encode {STATE} 0 1 5 - - 0");
    page.other(crowded, "# line N: too many: field 8");
    for (field, rest) in [(3, "300 - -"), (4, "0 f -"), (5, "0 - f"), (5, "0 -")] {
        unread(page, field, &format!("decode {STATE} {rest}"));
    }
}

/// A comment just as long as a line may be, one a character longer, and calls nearly as long.
fn long(page: &mut Page) {
    let comment = format!("# {}", "x".repeat(LONGEST - 2));
    page.other(comment.clone(), comment.clone());
    page.other(comment + "x", "# line N: too long");
    let call = |octets| encode(State::reset(2), 0, 1, 5, vec![0xFF; 8], room(octets));
    page.due(
        Due::Done(7),
        call((LONGEST - call(0).to_string().len()) / 2),
    );
    page.due(Due::Done(7), call(45_000));
    page.due(Due::Refused(3), call(6));
}

/// Empty lines within what is read last, and a line without a line feed at the end.
fn last(page: &mut Page) {
    page.other("", "");
    page.other("", "");
    page.due(Due::Done(0), Call::Reset(4));
}
