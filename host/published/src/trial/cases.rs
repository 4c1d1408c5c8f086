//! Folders with a few stand-ins, in which one thing was changed. The overload files are taken where any
//! would do: 2,048 values, so 64 lines of 65 characters and the remainder's line at 4,160.

use super::changes::{with_other_digit, with_returns, with_small_letters, without_last_line};
use super::homing;
use super::stock::Stock;
use super::{Case, Ends};
use second::text::write_whole;
use tool::scratch::Files;

const LENGTH: usize = 2_048;
const SENT_AGREES: &str = "RV52_M.I agrees; values: 2048";

pub fn all(stock: &Stock) -> Vec<Case> {
    [
        of_values(stock),
        of_texts(stock),
        of_folders(stock),
        of_absence(stock),
        of_inputs(stock),
        homing::all(stock),
    ]
    .concat()
}

/// Files in all of which something is said, and how many of them agree and differ.
pub fn case(what: &'static str, files: Files, lines: &[&str], agree: usize, differ: usize) -> Case {
    let not_there = 270 - agree - differ;
    Case {
        what,
        files,
        lines: lines.iter().map(|line| line.to_string()).collect(),
        counts: format!("agree: {agree}; differ: {differ}; not there: {not_there}"),
        ends: match (agree, differ) {
            (0, 0) => Ends::WithNothingCompared,
            (_, 0) => Ends::Well,
            _ => Ends::WithDifferences,
        },
    }
}

/// The stand-ins of these names, and another text under one name.
pub fn with(stock: &Stock, names: &[&str], name: &str, text: Vec<u8>) -> Files {
    let mut files = stock.files(names);
    files.insert(name.into(), text);
    files
}

const BEFORE: [&str; 2] = ["OVR.M", "RV52_M.I"];
const OUTPUT: &str = "RV52_M.O";

/// The output is another list, and its remainder is right.
fn of_values(stock: &Stock) -> Vec<Case> {
    let output = |what, values: &[u8], place| {
        let files = with(stock, &BEFORE, OUTPUT, write_whole(values));
        let line = format!("{OUTPUT} differs from value {place} on");
        case(what, files, &[SENT_AGREES, &line], 1, 1)
    };
    let changed = |place| stock.changed(OUTPUT, place, 1);
    let whole = stock.values(OUTPUT);
    vec![
        output("the first value", &changed(0), 0),
        output("a value", &changed(1_000), 1_000),
        output("the last value", &changed(LENGTH - 1), LENGTH - 1),
        output("a line fewer", &whole[..LENGTH - 32], LENGTH - 32),
        output("a value more", &[whole, &[7]].concat(), LENGTH),
        output("no values", &[], 0),
    ]
}

/// The output is no text.
fn of_texts(stock: &Stock) -> Vec<Case> {
    let text = stock.text(OUTPUT);
    let output = |what, text: Vec<u8>, why: &str| {
        let files = with(stock, &BEFORE, OUTPUT, text);
        let line = format!("{OUTPUT} cannot be read: {why}");
        case(what, files, &[SENT_AGREES, &line], 1, 1)
    };
    vec![
        output(
            "a digit and not the remainder",
            with_other_digit(&text, 65 * 31 + 17),
            "wrong remainder at 4160",
        ),
        output(
            "no last line",
            without_last_line(&text),
            "missing remainder at 4160",
        ),
        output(
            "carriage returns",
            with_returns(&text),
            "bad character at 64",
        ),
        output("an empty file", Vec::new(), "missing remainder at 0"),
    ]
}

/// The same files elsewhere, or under names in small letters.
fn of_folders(stock: &Stock) -> Vec<Case> {
    let names = ["OVR.M", "RV52_M.I", "RV52_M.O"];
    let lines = [SENT_AGREES, "RV52_M.O agrees; values: 2048"];
    let small = names.map(|name| {
        let text = with_small_letters(&stock.text(name));
        (name.to_ascii_lowercase().into(), text)
    });
    let places = ["disk 1/OVR.M", "DISK3/RV52_M.I", "-5/rv52_m.o"];
    let apart = [0, 1, 2].map(|i| (places[i].into(), stock.text(names[i])));
    vec![
        case("small letters", Files::from(small), &lines, 2, 0),
        case("folders", Files::from(apart), &lines, 2, 0),
    ]
}

fn of_absence(stock: &Stock) -> Vec<Case> {
    let sent = ["OVR.M", "RV52_M.I"];
    let and = |name| stock.files(&[sent.as_slice(), &[name]].concat());
    vec![
        case("an empty folder", Files::new(), &[], 0, 0),
        case("inputs alone", stock.files(&["OVR.M", "I40"]), &[], 0, 0),
        case(
            "no codewords",
            and("RV42_M.O"),
            &[SENT_AGREES, "RV42_M.O cannot be run: RV42_M.I is not there"],
            1,
            0,
        ),
        case(
            "no homing sequence",
            and("HV52_M.I"),
            &[
                SENT_AGREES,
                "HV52_M.I cannot be run: PCM_INIT.M is not there",
            ],
            1,
            0,
        ),
        case(
            "an output alone",
            stock.files(&["RV42_M.O"]),
            &["RV42_M.O cannot be run: RV42_M.I is not there"],
            0,
            0,
        ),
    ]
}

/// What a file is made of is no text, or a codeword of it is above its width: value 40 stands 8 values
/// behind the first line's end.
fn of_inputs(stock: &Stock) -> Vec<Case> {
    let returns = with_returns(&stock.text("OVR.M"));
    let homing = with_other_digit(&stock.text("PCM_INIT.M"), 9);
    let above = write_whole(&stock.changed("RV22_M.I", 40, 4));
    vec![
        case(
            "an input with carriage returns",
            with(stock, &["RV52_M.I"], "OVR.M", returns),
            &["RV52_M.I cannot be run: OVR.M cannot be read: bad character at 64"],
            0,
            1,
        ),
        case(
            "a homing sequence and not its remainder",
            with(stock, &["OVR.M", "HV52_M.I"], "PCM_INIT.M", homing),
            &["HV52_M.I cannot be run: PCM_INIT.M cannot be read: wrong remainder at 7102"],
            0,
            1,
        ),
        case(
            "a codeword above its width",
            with(stock, &["OVR.M", "RV22_M.O"], "RV22_M.I", above),
            &[
                "RV22_M.I differs from value 40 on",
                "RV22_M.O cannot be run: RV22_M.I: codeword above its width at 81",
            ],
            0,
            2,
        ),
    ]
}
