//! QUAN, LOG, SUBTB, RECONST and ANTILOG at the edges of their tables. With the predictor at reset a sample's level is its
//! difference, and with AP at its greatest YU is the scale factor.

use super::parts::{decode_fitting, encode_fitting, frame, pattern};
use super::states::{at_scale, drawn_codewords};
use crate::page::Page;
use random::states::PAIRS;
use random::Random;
use second::g711::{expand, Law};

/// Tables 8 to 11: where each magnitude begins on the scale of the normalized logarithm. Width 5 has those of all widths.
const THRESHOLDS: [i32; 15] = [
    -135, -7, 69, 123, 166, 202, 233, 261, 286, 310, 333, 356, 380, 405, 439,
];

/// DL of a magnitude: the whole logarithm and seven bits behind the point.
fn logarithm(size: i32) -> i32 {
    let exponent = (31 - size.max(1).leading_zeros()) as i32;
    128 * exponent + (size.max(1) - (1 << exponent)) * 128 / (1 << exponent)
}

/// All octets with their level's logarithm, in its order.
fn octets_by_logarithm(law: Law) -> Vec<(u8, i32)> {
    let mut found: Vec<(u8, i32)> = (0..=255)
        .map(|octet| (octet, logarithm(expand(law, octet).abs())))
        .collect();
    found.sort_by_key(|&(octet, dl)| (dl, octet));
    found
}

pub fn thresholds(page: &mut Page) {
    page.group(
        "thresholds",
        "QUAN just below, at and just above each threshold, at every width, either sign",
    );
    for law in Law::BOTH {
        for (place, threshold) in THRESHOLDS.into_iter().enumerate() {
            for normalized in threshold - 1..=threshold + 1 {
                at_normalized(page, law, normalized, place);
            }
        }
    }
}

/// An octet of either sign, and a scale factor at which its difference has this normalized logarithm.
fn at_normalized(page: &mut Page, law: Law, normalized: i32, place: usize) {
    let fits = |&(_, dl): &(u8, i32)| (136..=1_280).contains(&(dl - normalized));
    let all: Vec<(u8, i32)> = octets_by_logarithm(law).into_iter().filter(fits).collect();
    let negative = |octet: u8| expand(law, octet) < 0;
    for sign in [false, true] {
        let of_sign: Vec<_> = all
            .iter()
            .filter(|(octet, _)| negative(*octet) == sign)
            .collect();
        let (octet, dl) = *of_sign[place * 7 % of_sign.len()];
        let y = (4 * (dl - normalized)) as u16 + (place % 4) as u16;
        let (width, core) = PAIRS[place % 9];
        for width in [5, width] {
            let state = at_scale(core, y.clamp(544, 5_120));
            let samples = pattern(octet, 0x51, 8);
            page.ask(encode_fitting(state, law.number(), 1, width, samples));
        }
    }
}

pub fn logarithms(page: &mut Page) {
    page.group(
        "logarithms",
        "every octet as the first sample, at scale factors that differ by one",
    );
    for law in Law::BOTH {
        for octet in 0..=255_u8 {
            let (width, core) = PAIRS[usize::from(octet) % 9];
            let y = 544 + u16::from(octet) * 17 % 2_000;
            let samples = pattern(octet, 0x2B, 8);
            page.ask(encode_fitting(
                at_scale(core, y),
                law.number(),
                1,
                width,
                samples,
            ));
        }
    }
}

const SEED: u64 = 4;

pub fn codewords(page: &mut Page) {
    page.group("codewords", "RECONST and ANTILOG: every codeword of every pair at four scale factors; the rest from seed 4");
    let mut random = Random::new(SEED);
    for (width, core) in PAIRS {
        for codeword in 0..1 << width {
            for y in scales(core, codeword) {
                let law = (codeword ^ y as u8) & 1;
                let all = drawn_codewords(&mut random, width, codeword);
                page.ask(decode_fitting(
                    at_scale(core, y),
                    law,
                    frame(width, core, &all),
                ));
            }
        }
    }
}

/// Low ones, where a difference of 0 is met; those about a step of ANTILOG's exponent; and the greatest.
fn scales(core: u8, codeword: u8) -> [u16; 4] {
    let place = u16::from(core) + u16::from(codeword);
    [
        544 + place % 8,
        1_024 + 4 * place,
        2_048 + place * 37 % 512,
        5_120 - place % 4,
    ]
}
