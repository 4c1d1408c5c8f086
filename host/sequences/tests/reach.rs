//! What the sequences are for: that between them they drive each core to the ends of its ranges, to
//! tones and transitions, through every codeword and to bytes that SYNC moves.

use second::state::State;
use sequences::files::Inputs;
use sequences::names::{all, Sequence, PAIRS};
use sequences::play::{play, Sample};

fn samples(wanted: impl Fn(&Sequence) -> bool) -> Vec<Sample> {
    let inputs = Inputs::made();
    all()
        .iter()
        .filter(|sequence| wanted(sequence))
        .flat_map(|sequence| play(sequence, &inputs).samples)
        .collect()
}

/// The decoder's law does not reach a state, so crossed laws are left out.
fn states(core: u8) -> Vec<State> {
    samples(|sequence| sequence.core == core && sequence.law_in == sequence.law_out)
        .iter()
        .map(|sample| sample.state)
        .collect()
}

#[test]
fn scale_and_speed_reach_their_ends() {
    for core in 2..=4 {
        let states = states(core);
        let meets = |what: &str, test: &dyn Fn(&State) -> bool| {
            assert!(states.iter().any(test), "{what} at core {core}");
        };
        meets("the least YU", &|s| s.yu == 544);
        meets("the greatest YU", &|s| s.yu == 5_120);
        meets("the least YL", &|s| s.yl == 34_816);
        meets("a great YL", &|s| s.yl > 320_000);
        meets("AP of 0", &|s| s.ap == 0);
        meets("a great AP", &|s| s.ap > 490);
        meets("great averages", &|s| s.dms > 3_500 && s.dml > 14_000);
    }
}

#[test]
fn the_predictor_reaches_its_limits() {
    for core in 2..=4 {
        let states = states(core);
        let meets = |what: &str, test: &dyn Fn(&State) -> bool| {
            assert!(states.iter().any(test), "{what} at core {core}");
        };
        let bound = |s: &State| 15_360 - s.a2 as i16;
        meets("the least A2", &|s| s.a2 as i16 == -12_288);
        meets("the greatest A2", &|s| s.a2 as i16 == 12_288);
        meets("the greatest A1", &|s| s.a1 as i16 == bound(s));
        meets("the least A1", &|s| s.a1 as i16 == -bound(s));
        meets("B past 32,767", &|s| s.b.contains(&32_768));
        meets("a tone", &|s| s.td == 1);
    }
}

/// TRIGB sets A and B to 0 after a tone.
#[test]
fn transitions_happen_at_every_core() {
    for core in 2..=4 {
        let happened = states(core).windows(2).any(|two| {
            let (before, after) = (two[0], two[1]);
            before.td == 1 && (after.a1, after.a2, after.b) == (0, 0, [0; 6])
        });
        assert!(happened, "at core {core}");
    }
}

#[test]
fn every_codeword_is_sent_and_bytes_are_moved() {
    for (width, core) in PAIRS {
        let samples = samples(|sequence| (sequence.width, sequence.core) == (width, core));
        for codeword in 0..1 << width {
            let sent = |sample: &Sample| sample.octet.is_some() && sample.codeword == codeword;
            assert!(samples.iter().any(sent), "{codeword} at ({width},{core})");
        }
        assert!(
            samples
                .iter()
                .any(|sample| sample.byte != sample.compressed),
            "({width},{core})"
        );
    }
}
