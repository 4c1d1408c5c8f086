//! The part that encoder and decoder share: what is expected before a sample (Y, SE, SEZ), and
//! the step that moves the state on. The step is given the core codeword and nothing else, so
//! that enhancement bits have no way into the state (Recommendation, sections 3 and 6).

use crate::adaptation;
use crate::float::Float;
use crate::predictor;
use crate::quantizer;
use crate::state::State;

#[derive(Clone, Copy, Debug, PartialEq, Eq)]
pub struct Estimate {
    pub y: i32,
    pub se: i32,
    pub sez: i32,
}

pub fn estimate(state: &State) -> Estimate {
    let (se, sez) = predictor::estimates(state);
    Estimate {
        y: adaptation::mix(state),
        se,
        sez,
    }
}

/// The state after one sample. ADDC's and ADDB's sums stay within 16 bits: DQ is at most
/// 11,008 here and an estimate has 15 bits.
pub fn advance(state: &State, core_codeword: u8) -> State {
    let Estimate { y, se, sez } = estimate(state);
    let index = quantizer::magnitude_index(state.core, core_codeword);
    let dq = quantizer::reconstruct(state.core, core_codeword, y);
    let (a1, a2) = predictor::next_poles(state, dq + sez);
    let tone = predictor::is_tone(a2);
    let transition = predictor::is_transition(state, dq);
    let yu = adaptation::next_fast_scale(state.core, index, y);
    let averages = adaptation::next_averages(state, index);
    let moved_on = State {
        yu: yu as u16,
        yl: adaptation::next_slow_scale(state.yl, yu) as u32,
        dms: averages.0 as u16,
        dml: averages.1 as u16,
        ap: adaptation::next_speed(state.ap, y, averages, tone, transition) as u16,
        a1: a1 as u16,
        a2: a2 as u16,
        b: std::array::from_fn(|i| predictor::next_b(state.b[i], state.dq[i], dq)),
        dq: delayed(state.dq, Float::of_signal(dq).to_word()),
        sr1: Float::of_signal(dq + se).to_word(),
        sr2: state.sr1,
        pk1: u16::from(dq + sez < 0),
        pk2: state.pk1,
        td: u16::from(tone),
        core: state.core,
        number: state.number,
    };
    if transition {
        triggered(moved_on)
    } else {
        moved_on
    }
}

fn delayed(past: [u16; 6], newest: u16) -> [u16; 6] {
    [newest, past[0], past[1], past[2], past[3], past[4]]
}

/// TRIGB: a transition sets the predictor and the tone flag back.
fn triggered(state: State) -> State {
    State {
        a1: 0,
        a2: 0,
        b: [0; 6],
        td: 0,
        ..state
    }
}
