//! Short texts cut at every place in two, with buffers of 0, 1, 2 and more octets: the values and the verdict are those of the
//! whole text, which tests read in one go.

use super::text_parts::feed;
use crate::call::Call;
use crate::page::Page;
use second::text::Reader;

/// Good texts, then one and more for each refusal.
const SHORT: [&str; 13] = [
    "00\n",
    "0102\n03\n",
    "01\n0203\n04\n0A\n",
    "0aFf\n0a\n",
    "01G2\n",
    "010\n01\n",
    "01\n\n01\n",
    "FF\n",
    "0102\n04\n",
    "FF01FF\nFF\n",
    "0",
    "01020304\n",
    "01\n01",
];

pub fn cuts(page: &mut Page) {
    page.group(
        "cuts",
        "short texts cut at every place, buffers of 0, 1, 2 and more octets; each line goes on from the last one's answer",
    );
    for text in SHORT {
        for octets in [0, 1, 2, 5] {
            cut_everywhere(page, text, octets);
        }
    }
    let line = "01".repeat(32);
    cut_everywhere(page, &format!("{line}\n20\n"), 40);
    cut_everywhere(page, &format!("{line}0\n"), 40);
}

/// Where a buffer of no octets stops a text, the next one has one octet.
fn cut_everywhere(page: &mut Page, text: &str, octets: usize) {
    for place in 0..=text.len() {
        let (front, back) = text.as_bytes().split_at(place);
        let mut reader = Reader::default();
        for piece in [front, back] {
            let mut lengths = [octets, octets.max(1)].into_iter().cycle();
            reader = feed(page, reader, piece, || lengths.next().expect("no end"));
        }
        page.ask(Call::EndText(reader));
    }
}
