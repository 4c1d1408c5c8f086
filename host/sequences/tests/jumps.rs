//! What the jumps are for: within tones TRANS meets differences of many sizes at every value of
//! YLINT, and TRIGB follows it exactly where the difference is above the threshold.

use second::engine::estimate;
use second::quantizer::{reconstruct, thinned};
use second::state::State;
use sequences::files::Inputs;
use sequences::names::{all, Input, Sequence};
use sequences::play::play;

/// A sample within a tone.
struct Met {
    /// YLINT of TRANS.
    whole: u32,
    /// The size of the core's difference, and the greatest that is no transition.
    size: i32,
    most: i32,
    /// Whether TRIGB set A and B to 0.
    transition: bool,
}

impl Met {
    fn at(before: &State, core_codeword: u8, after: &State) -> Met {
        let (whole, fraction) = (before.yl / 32_768, before.yl / 1_024 % 32);
        let threshold = match whole {
            ..=8 => (32 + fraction) * 2_u32.pow(whole),
            _ => 31 * 512,
        };
        Met {
            whole,
            size: reconstruct(before.core, core_codeword, estimate(before).y).abs(),
            most: (threshold * 3 / 4) as i32,
            transition: (after.a1, after.a2, after.b) == (0, 0, [0; 6]),
        }
    }
}

fn met_in_tones(sequence: &Sequence) -> Vec<Met> {
    let Sequence { width, core, .. } = *sequence;
    let mut before = State::reset(core);
    let mut met = Vec::new();
    for sample in play(sequence, &Inputs::made()).samples {
        let core_codeword = thinned(width, sample.codeword, core);
        if before.td == 1 {
            met.push(Met::at(&before, core_codeword, &sample.state));
        }
        before = sample.state;
    }
    met
}

/// For each of the six runs, what it meets within tones.
fn jumps() -> Vec<(String, Vec<Met>)> {
    all()
        .iter()
        .filter(|sequence| sequence.input == Input::Jump)
        .map(|sequence| (sequence.name(), met_in_tones(sequence)))
        .collect()
}

/// YLINT is 1 at least. At 9 and 10 no core has a difference that is large enough.
#[test]
fn transitions_happen_at_every_slow_scale() {
    for (name, met) in jumps() {
        for whole in 1..=10 {
            let happened = met.iter().any(|met| met.transition && met.whole == whole);
            assert_eq!(happened, whole <= 8, "{name} at {whole}");
        }
    }
}

#[test]
fn transitions_happen_above_the_threshold_alone() {
    for (name, met) in jumps() {
        let as_due = |met: &Met| met.transition == (met.size > met.most);
        assert!(met.iter().all(as_due), "{name}");
    }
}

/// One is the greatest that is none, and one at a YLINT above 8 would be one if 31 << 9 were 31 << 8.
#[test]
fn tones_outlast_differences_close_to_the_threshold() {
    for (name, met) in jumps() {
        let meets = |what: &str, test: &dyn Fn(&Met) -> bool| {
            assert!(met.iter().any(test), "{what} in {name}");
        };
        meets("the threshold", &|met| met.size == met.most);
        let loud = 31 * 256 * 3 / 4;
        meets("more", &|met| met.whole > 8 && met.size > loud);
    }
}
