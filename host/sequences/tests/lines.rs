//! The lines: their names and order, their form, and what the checksums of related sequences must
//! share.

use sequences::checksum::of_numbers;
use sequences::files::Inputs;
use sequences::lines::{dump, line, lines};
use sequences::names::{all, Sequence};
use sequences::play::play;

fn names() -> Vec<String> {
    all().iter().map(Sequence::name).collect()
}

#[test]
fn names_in_order() {
    let names = names();
    assert_eq!(names.len(), 2 * (36 + 36 + 18) + 6 + 3);
    assert_eq!(
        names[..5],
        ["RN52_M", "RN52_A", "RN52_C", "RN52_X", "RN42_M"]
    );
    assert_eq!(names[35..37], ["RN44_X", "RV52_M"]);
    assert_eq!(names[71..75], ["RV44_X", "RI52_M", "RI52_A", "RI42_M"]);
    assert_eq!(names[89..91], ["RI44_A", "HN52_M"]);
    assert_eq!(names[179..183], ["HI44_A", "RJ52_M", "RJ52_A", "RJ53_M"]);
    assert_eq!(names[185..], ["RJ54_A", "HELD22_M", "HELD33_M", "HELD44_M"]);
}

#[test]
fn every_name_is_found_and_no_other() {
    for sequence in all() {
        assert_eq!(Sequence::named(&sequence.name()), Some(sequence));
    }
    for name in [
        "", "RN25_M", "RI52_C", "RJ42_M", "RJ52_C", "HJ52_M", "HELD52_M", "RN52_M ", "rn52_m",
    ] {
        assert_eq!(Sequence::named(name), None);
    }
}

#[test]
fn the_checksum_by_hand() {
    assert_eq!(of_numbers([]), 0);
    assert_eq!(of_numbers([0]), 1);
    assert_eq!(of_numbers([1, 0]), 2 * 65_599 + 1);
    assert_eq!(
        of_numbers([65_534, 1]),
        (65_535 * 65_599 + 2) % 4_294_967_291
    );
}

#[test]
fn each_line_has_its_name_and_four_numbers() {
    let inputs = Inputs::made();
    for (name, line) in names().iter().zip(lines(&inputs)) {
        let words: Vec<&str> = line.split(' ').collect();
        let due = match &name[..2] {
            "RV" | "HV" => 2_048,
            "RJ" => 4_096,
            "HE" => 2_000,
            _ => 16_384,
        };
        assert_eq!(
            (words[0], words[1]),
            (name.as_str(), due.to_string().as_str())
        );
        assert_eq!(words.len(), 5);
        assert!(words[2..].iter().all(|word| word.parse::<u32>().is_ok()));
    }
}

fn words_of(name: &str, inputs: &Inputs) -> Vec<String> {
    let sequence = Sequence::named(name).unwrap();
    let line = line(name, &play(&sequence, inputs));
    line.split(' ').map(str::to_string).collect()
}

/// The decoder's law changes its bytes and nothing else; the width changes no state, the start no
/// I-input. By the end of an I-input a decoder may have forgotten its start, but the bytes on the
/// way tell of it.
#[test]
fn what_related_lines_share() {
    let inputs = Inputs::made();
    let of = |name: &str| words_of(name, &inputs);
    for width_and_core in ["52", "43", "44"] {
        let same = of(&format!("HN{width_and_core}_A"));
        let across = of(&format!("HN{width_and_core}_X"));
        assert_eq!((&same[2], &same[4]), (&across[2], &across[4]));
        assert_ne!(same[3], across[3]);
    }
    assert_eq!(of("RV52_M")[4], of("RV22_M")[4]);
    assert_ne!(of("RV52_M")[2], of("RV22_M")[2]);
    assert_eq!(of("RI53_M")[2], of("HI54_A")[2]);
    assert_ne!(of("RI53_M")[3], of("HI53_M")[3]);
}

#[test]
fn a_dump_counts_from_0_and_ends_in_the_line_s_state() {
    let inputs = Inputs::made();
    for (name, octet) in [("HV42_C", "255"), ("RI33_A", "-")] {
        let dump = dump(&Sequence::named(name).unwrap(), &inputs);
        let words = |place: usize| dump[place].split(' ').collect::<Vec<_>>();
        assert_eq!((words(0)[0], words(0)[1], words(0).len()), ("0", octet, 6));
        let last = words(dump.len() - 1);
        assert_eq!(last[0], (dump.len() - 1).to_string());
        assert_eq!(last[5], words_of(name, &inputs)[4]);
    }
}

#[test]
fn ends_that_part_are_told() {
    let inputs = Inputs::made();
    let mut played = play(&Sequence::named("RV22_M").unwrap(), &inputs);
    played.in_step = false;
    assert_eq!(line("RV22_M", &played), "RV22_M states differ");
}
