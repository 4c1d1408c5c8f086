//! The groups of calls that are stored, in their order (docs/EVIDENCE.md lists them). What is drawn is drawn from a seed that
//! the group's first line gives.

use crate::page::Page;

mod again;
mod buffers;
mod cuts;
mod drawn;
mod drawn_texts;
mod editions;
pub mod ends;
mod expanded;
mod limits;
mod linear_buffers;
mod linear_ends;
mod linear_lines;
mod linear_parts;
mod linear_replies;
mod lines;
mod lost;
mod numbers;
mod order;
mod output_path;
mod parts;
mod poles;
mod products;
mod quantizing;
mod ranges;
mod readers;
mod replies;
mod speed;
mod states;
mod streams;
mod text_lines;
mod text_parts;
mod texts;
mod transitions;
mod widths;
mod worked;
mod writers;
mod written;
mod zeros;

const GROUPS: [fn(&mut Page); 50] = [
    worked::frames,
    worked::first_bytes,
    worked::levels,
    limits::limits,
    replies::replies,
    order::order,
    buffers::buffers,
    again::again,
    ranges::ranges,
    editions::editions,
    numbers::numbers,
    widths::copies,
    widths::dropped,
    widths::changed,
    widths::halves,
    streams::streams,
    streams::jumps,
    streams::held,
    streams::wraps,
    lost::lost,
    quantizing::thresholds,
    quantizing::logarithms,
    quantizing::codewords,
    speed::mixing,
    speed::scales,
    speed::averages,
    products::coefficients,
    products::sums,
    zeros::zeros,
    poles::poles,
    poles::tones,
    transitions::transitions,
    output_path::decisions,
    output_path::synchronous,
    ends::ends,
    drawn::drawn,
    linear_replies::linear_replies,
    order::linear_order,
    linear_buffers::linear_buffers,
    linear_ends::linear_ends,
    expanded::expanded,
    streams::linear_streams,
    drawn::linear_drawn,
    texts::texts,
    cuts::cuts,
    drawn_texts::drawn_texts,
    readers::readers,
    written::written,
    writers::writers,
    lines::lines,
];

pub fn all() -> Page {
    let mut page = Page::default();
    for group in GROUPS {
        group(&mut page);
    }
    page
}
