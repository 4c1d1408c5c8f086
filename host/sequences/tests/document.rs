//! The numbers that docs/SEQUENCES.md gives to someone who builds the sequences from its text.

use second::state::State;
use sequences::checksum::{of_numbers, of_octets, of_state};
use sequences::codewords::i_input;
use sequences::files::{in_repository, path, Inputs};
use sequences::lines::line;
use sequences::names::Sequence;
use sequences::play::play;

fn says(text: &str) {
    let document = std::fs::read_to_string(in_repository("docs/SEQUENCES.md")).unwrap();
    assert!(document.contains(text), "it does not say: {text}");
}

#[test]
fn checksums_of_lists_and_states() {
    let list = of_numbers([1, 0]);
    let other = of_numbers([255; 3]);
    says(&format!(
        "the list 1, 0 has {list}, the list 255, 255, 255 has {other}."
    ));
    let [two, three, four] = [2, 3, 4].map(|core| of_state(&State::reset(core)));
    says("The reset state of core 2 has the checksum");
    says(&format!(
        "{two}, that of core 3 {three}, that of core 4 {four}."
    ));
}

#[test]
fn checksums_of_the_inputs() {
    for input in Inputs::made().0 {
        let path = path(input.kind, input.law);
        let name = path.rsplit('/').next().unwrap();
        let sum = of_octets(input.octets.iter().copied());
        says(&format!("| `{name}` | {} | {sum} |", input.octets.len()));
    }
    for width in 2..=5 {
        says(&format!("| {width} | {} |", of_octets(i_input(width))));
    }
}

#[test]
fn the_first_line() {
    let sequence = Sequence::named("RN52_M").unwrap();
    says(&line("RN52_M", &play(&sequence, &Inputs::made())));
}
