//! The stand-ins for the diskettes: how many and how long they are, and that they are what is played
//! as a sequence, but for a decoder across laws, which is homed by its own law.

use sequences::files::{Inputs, Kind};
use sequences::names::{all, Input, Sequence, Start};
use sequences::play::{play, Sample};
use sequences::stand_ins::{self, StandIn};
use std::collections::BTreeMap;

fn by_name() -> BTreeMap<String, Vec<u8>> {
    let stand_ins = stand_ins::all(&Inputs::made()).into_iter();
    stand_ins.map(|s| (s.name, s.values)).collect()
}

#[test]
fn every_file_has_a_name_of_its_own_and_the_described_length() {
    let found = stand_ins::all(&Inputs::made());
    assert_eq!((found.len(), by_name().len()), (10 + 18 + 252, 280));
    for StandIn { name, values } in found {
        let due = match name.as_str() {
            "PCM_INIT.M" | "PCM_INIT.A" => 3_496,
            "OVR.M" | "OVR.A" => 2_048,
            _ if name.starts_with("I_INIT") => 3_496 + 16_384,
            _ if name[1..].starts_with('V') && name.len() == 8 => 2_048,
            _ => 16_384,
        };
        assert_eq!(values.len(), due, "{name}");
    }
}

#[test]
fn a_codeword_has_no_bit_above_its_width() {
    let codewords = by_name().into_iter().filter(|(name, _)| {
        name.ends_with(".I") || name.starts_with("I_INIT") || !name.contains('.')
    });
    let mut files = 0;
    for (name, values) in codewords {
        let width = match name.as_str() {
            "I16" => 2,
            "I24" => 3,
            "I32" => 4,
            "I40" => 5,
            _ => name.trim_start_matches(|c: char| !c.is_ascii_digit())[..1]
                .parse()
                .unwrap(),
        };
        assert!(values.iter().all(|&value| value < 1 << width), "{name}");
        files += 1;
    }
    assert_eq!(files, 4 + 18 + 72);
}

/// Whether its decoder is homed otherwise than the sequence that is played.
fn is_homed_across(sequence: &Sequence) -> bool {
    sequence.start == Start::Homed && sequence.law_in != sequence.law_out
}

#[test]
fn they_are_what_is_played() {
    let (inputs, files) = (Inputs::made(), by_name());
    let mut apart = 0;
    for sequence in all() {
        if matches!(sequence.input, Input::Jump | Input::Held) {
            continue;
        }
        let name = sequence.name();
        let samples = play(&sequence, &inputs).samples;
        let list = |of: fn(&Sample) -> u8| samples.iter().map(of).collect::<Vec<u8>>();
        if let Some(codewords) = files.get(&format!("{name}.I")) {
            assert_eq!(*codewords, list(|sample| sample.codeword), "{name}");
        }
        let same = files[&format!("{name}.O")] == list(|sample| sample.byte);
        assert!(same || is_homed_across(&sequence), "{name}");
        apart += usize::from(!same);
    }
    assert!(apart > 0, "homing by another law has to show");
}

#[test]
fn the_combined_codewords_are_those_of_homing_and_the_i_input() {
    let files = by_name();
    let length = Kind::Homing.samples();
    for (name, i_input) in [("I_INIT52.M", "I40"), ("I_INIT33.A", "I24")] {
        assert_eq!(files[name][length..], files[i_input]);
    }
    assert_ne!(files["I_INIT52.M"][..length], files["I_INIT52.A"][..length]);
}

#[test]
fn a_text_has_lines_of_32_values_and_the_remainder() {
    let stand_in = StandIn {
        name: "it".to_string(),
        values: vec![0xAB; 33],
    };
    let due = format!("{}\nAB\n21\n", "AB".repeat(32));
    assert_eq!(stand_in.text(), due.into_bytes());
}
