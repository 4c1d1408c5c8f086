//! Folders in which what homes a decoder was changed: the codewords of homing with those of the I-input
//! behind them, and the homing sequence itself.

use super::cases::{case, with};
use super::stock::Stock;
use super::Case;
use second::g711::Law;
use second::text::write_whole;
use sequences::codec::Codec;

const COMBINED: &str = "I_INIT52.M";
const PAIR: Codec = Codec {
    law: Law::Mu,
    width: 5,
    core: 2,
};

pub fn all(stock: &Stock) -> Vec<Case> {
    [
        of_absence(stock),
        of_codewords(stock),
        vec![of_value(stock), of_other_law(stock)],
    ]
    .concat()
}

/// An I-input after homing is decoded from either kind of files.
fn of_absence(stock: &Stock) -> Vec<Case> {
    let agrees = "HI52_M.O agrees; values: 16384";
    let unrun = "I_INIT52.M cannot be run: PCM_INIT.M is not there";
    vec![
        case(
            "no combined codewords",
            stock.files(&["PCM_INIT.M", "I40", "HI52_M.O"]),
            &[agrees],
            1,
            0,
        ),
        case(
            "combined codewords and no inputs",
            stock.files(&[COMBINED, "HI52_M.O"]),
            &[agrees, unrun],
            1,
            0,
        ),
    ]
}

fn of_codewords(stock: &Stock) -> Vec<Case> {
    let length = stock.values("PCM_INIT.M").len();
    let homing = stock.changed(COMBINED, 7, 1);
    let input = stock.changed(COMBINED, length + 100, 0x10);
    let decoded = PAIR.decode(&[], &input);
    let differs = compared(stock, "HI52_M.O", &decoded[length..]);
    let given = ["PCM_INIT.M", "HI52_M.O"];
    vec![
        case(
            "a codeword of homing",
            with(stock, &given[..1], COMBINED, write_whole(&homing)),
            &["I_INIT52.M differs from value 7 on"],
            0,
            1,
        ),
        case(
            "a codeword of the I-input",
            with(stock, &given, COMBINED, write_whole(&input)),
            &[&differs, "I_INIT52.M agrees; values: 3496"],
            1,
            1,
        ),
    ]
}

fn of_value(stock: &Stock) -> Case {
    let changed = stock.changed("PCM_INIT.M", 5, 0x80);
    let differs = compared(stock, COMBINED, &PAIR.encode(&[], &changed));
    case(
        "a value of the homing sequence",
        with(stock, &[COMBINED], "PCM_INIT.M", write_whole(&changed)),
        &[&differs],
        0,
        1,
    )
}

/// That a decoder across laws is homed by its own law shows where the two sequences are exchanged.
fn of_other_law(stock: &Stock) -> Case {
    let other = stock.values("PCM_INIT.M");
    let decoder = Codec {
        law: Law::A,
        ..PAIR
    };
    let made = decoder.decode(other, stock.values("HV52_M.I"));
    let differs = compared(stock, "HV52_C.O", &made);
    let given = ["OVR.M", "PCM_INIT.M", "HV52_M.I", "HV52_C.O"];
    case(
        "the homing sequence of the other law",
        with(stock, &given, "PCM_INIT.A", write_whole(other)),
        &["HV52_M.I agrees; values: 2048", &differs],
        1,
        1,
    )
}

/// What has to be said of a stand-in where this is what the program makes, which differs from it.
fn compared(stock: &Stock, name: &str, made: &[u8]) -> String {
    let both = stock.values(name).iter().zip(made);
    let same = both.take_while(|(one, other)| one == other).count();
    format!("{name} differs from value {same} on")
}
