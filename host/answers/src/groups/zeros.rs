//! UPB and XOR: each of the six coefficients about the words where its leak or its gain changes course, with each sign of the
//! past difference and of the present one.

use super::parts::{decode_fitting, frame};
use super::states::at_scale;
use crate::page::Page;
use second::state::State;

const WORDS: [u16; 24] = [
    0, 1, 127, 128, 129, 255, 256, 257, 511, 512, 32_511, 32_512, 32_639, 32_640, 32_766, 32_767,
    32_768, 32_769, 32_895, 32_896, 65_280, 65_407, 65_408, 65_535,
];

pub fn zeros(page: &mut Page) {
    page.group("zeros", "UPB: B about 0, 128, 256, 32,767 and 32,768 in each place, past and present differences of either sign");
    for (round, word) in WORDS.into_iter().enumerate() {
        for signs in 0..4_u16 {
            let core = 2 + (round % 3) as u8;
            let past = 32 + 1_024 * (signs & 1);
            let mut state = State {
                b: std::array::from_fn(|i| word.wrapping_add((7 * i * (round % 2)) as u16)),
                dq: [past; 6],
                ..at_scale(core, 544 + 100 * round as u16)
            };
            state.b[round % 6] = word;
            let codeword = if signs < 2 { 0 } else { (1 << core) - 1 };
            page.ask(decode_fitting(state, 0, frame(core, core, &[codeword; 8])));
        }
    }
}
