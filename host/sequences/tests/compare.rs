//! The comparison with another codec's lines finds the first that differs and passes over what is
//! no line of a sequence.

use sequences::compare::{first_difference, Difference};

fn ours() -> Vec<String> {
    ["RN52_M 1 2 3 4", "RN52_A 5 6 7 8", "RN52_C 9 10 11 12"]
        .map(str::to_string)
        .to_vec()
}

fn difference(name: &str, ours: &str, theirs: &str) -> Option<Difference> {
    Some(Difference {
        name: name.to_string(),
        ours: ours.to_string(),
        theirs: theirs.to_string(),
    })
}

#[test]
fn equal_lines_have_no_difference() {
    let text = "RN52_M 1 2 3 4\nRN52_A 5 6 7 8\nRN52_C 9 10 11 12\n";
    assert_eq!(first_difference(&ours(), text), None);
}

#[test]
fn other_lines_are_passed_over() {
    let text = "example 1: done\nRN52_M 1 2 3 4\n\nRN52_A 5 6 7 8\nRN52_C 9 10 11 12\nlimits: done";
    assert_eq!(first_difference(&ours(), text), None);
}

#[test]
fn a_changed_number_is_found() {
    let text = "RN52_M 1 2 3 4\nRN52_A 5 6 0 8\nRN52_C 0 10 11 12\n";
    let due = difference("RN52_A", "RN52_A 5 6 7 8", "RN52_A 5 6 0 8");
    assert_eq!(first_difference(&ours(), text), due);
}

#[test]
fn a_line_too_few_or_too_many_is_found() {
    let text = "RN52_M 1 2 3 4\nRN52_A 5 6 7 8\n";
    let due = difference("RN52_C", "RN52_C 9 10 11 12", "(no line)");
    assert_eq!(first_difference(&ours(), text), due);
    let due = difference("RN52_C", "(no line)", "RN52_C 9 10 11 12");
    let text = "RN52_M 1 2 3 4\nRN52_A 5 6 7 8\nRN52_C 9 10 11 12\n";
    assert_eq!(first_difference(&ours()[..2], text), due);
    let nothing = difference("RN52_M", "RN52_M 1 2 3 4", "(no line)");
    assert_eq!(first_difference(&ours(), ""), nothing);
}

#[test]
fn a_wrong_order_is_found() {
    let text = "RN52_M 1 2 3 4\nRN52_C 9 10 11 12\nRN52_A 5 6 7 8\n";
    let due = difference("RN52_A", "RN52_A 5 6 7 8", "RN52_C 9 10 11 12");
    assert_eq!(first_difference(&ours(), text), due);
}

#[test]
fn differing_states_are_a_difference_even_from_their_like() {
    let parted = ["RN52_M states differ".to_string()];
    let due = difference("RN52_M", &parted[0], &parted[0]);
    assert_eq!(first_difference(&parted, &parted[0]), due);
}
