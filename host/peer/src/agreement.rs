//! The comparisons themselves. Each gives the count of samples that agreed, or says where the
//! first did not: the input, the sample's index and both values.

use crate::inputs::{self, Signal};
use crate::spandsp::{Peer, CORE};
use crate::speech;
use random::Random;
use second::g711::Law;
use second::sample;
use second::state::State;
use std::ops::AddAssign;

/// Codes have two bits, the core's, with nothing to drop.
const WIDTH: u8 = CORE;
/// States are compared after each block, codes and bytes for every sample.
const BLOCK: usize = 100;
const DRAWN_STATES: usize = 300_000;

/// How many samples agreed, and how many decoded bytes among them SYNC had moved: without some
/// of these the comparison would say nothing of SYNC.
#[derive(Clone, Copy, Default)]
pub struct Count {
    pub samples: usize,
    pub moved: usize,
}

impl AddAssign for Count {
    fn add_assign(&mut self, more: Count) {
        self.samples += more.samples;
        self.moved += more.moved;
    }
}

type Agreed = Result<Count, String>;

pub fn compare_everything() -> Agreed {
    let mut total = signals("tones", &inputs::tones())?;
    total += signals("noise", &inputs::noises())?;
    total += random_bytes()?;
    total += code_sequences()?;
    total += drawn_states()?;
    let recordings = speech::recordings();
    if recordings.is_empty() {
        println!("peer: asterisk-core-sounds-en-wav is not installed, so speech was not compared");
    } else {
        total += signals("speech", &recordings)?;
    }
    Ok(total)
}

fn report(kind: &str, law: Law, count: Count) {
    let Count { samples, moved } = count;
    println!("peer: {kind}, {law:?}-law: {samples} samples agree, {moved} of them moved by SYNC");
}

fn signals(kind: &str, signals: &[Signal]) -> Agreed {
    let mut total = Count::default();
    for law in Law::BOTH {
        let mut count = Count::default();
        for signal in signals {
            count += there_and_back(&signal.name, law, &signal.bytes(law))?;
        }
        report(kind, law, count);
        total += count;
    }
    Ok(total)
}

fn random_bytes() -> Agreed {
    let bytes = inputs::random_bytes();
    let mut total = Count::default();
    for law in Law::BOTH {
        let count = there_and_back("random bytes", law, &bytes)?;
        report("random bytes", law, count);
        total += count;
    }
    Ok(total)
}

fn code_sequences() -> Agreed {
    let mut total = Count::default();
    for law in Law::BOTH {
        let mut count = Count::default();
        for sequence in inputs::code_sequences() {
            count += decoders(&sequence.name, law, &sequence.codes)?;
        }
        report("codes that no encoder sends", law, count);
        total += count;
    }
    Ok(total)
}

/// Encodes with both and decodes the codes with both. A sample counts once for each way.
fn there_and_back(name: &str, law: Law, pcm: &[u8]) -> Agreed {
    let codes = encoders(name, law, pcm)?;
    let mut count = decoders(name, law, &codes)?;
    count.samples += codes.len();
    Ok(count)
}

fn encoders(name: &str, law: Law, pcm: &[u8]) -> Result<Vec<u8>, String> {
    let mut peer = Peer::new(law);
    let mut state = State::reset(CORE);
    let mut codes = Vec::with_capacity(pcm.len());
    for block in pcm.chunks(BLOCK) {
        for (&byte, theirs) in block.iter().zip(peer.encode(block)) {
            let ours = sample::encode(&state, law, WIDTH, byte);
            same(name, law, codes.len(), "code", ours.codeword, theirs)?;
            codes.push(ours.codeword);
            state = ours.state;
        }
        same(name, law, codes.len(), "state", state, peer.state())?;
    }
    Ok(codes)
}

fn decoders(name: &str, law: Law, codes: &[u8]) -> Agreed {
    let mut peer = Peer::new(law);
    let mut state = State::reset(CORE);
    let mut done = Count::default();
    for block in codes.chunks(BLOCK) {
        for (&code, theirs) in block.iter().zip(peer.decode(block)) {
            let ours = sample::decode(&state, law, WIDTH, code);
            same(name, law, done.samples, "byte", ours.byte, theirs)?;
            done.samples += 1;
            done.moved += usize::from(ours.byte != ours.compressed);
            state = ours.state;
        }
        same(name, law, done.samples, "state", state, peer.state())?;
    }
    Ok(done)
}

/// One step of the encoder and one of the decoder, each counted, from states that streams seldom or never meet.
fn drawn_states() -> Agreed {
    let mut random = Random::new(14);
    let mut total = Count::default();
    for law in Law::BOTH {
        let mut peer = Peer::new(law);
        let mut count = Count::default();
        for index in 0..DRAWN_STATES {
            let state = inputs::limited_state(&mut random, CORE);
            encoder_step(&mut peer, &state, law, index, random.draw() as u8)?;
            let moved = decoder_step(&mut peer, &state, law, index, random.below(4) as u8)?;
            count.samples += 2;
            count.moved += usize::from(moved);
        }
        report("steps from drawn states", law, count);
        total += count;
    }
    Ok(total)
}

fn encoder_step(
    peer: &mut Peer,
    state: &State,
    law: Law,
    index: usize,
    byte: u8,
) -> Result<(), String> {
    let name = format!("byte {byte:02X} encoded at {state:?}");
    peer.set_state(state);
    let ours = sample::encode(state, law, WIDTH, byte);
    let theirs = peer.encode(&[byte])[0];
    same(&name, law, index, "code", ours.codeword, theirs)?;
    same(&name, law, index, "state", ours.state, peer.state())
}

fn decoder_step(
    peer: &mut Peer,
    state: &State,
    law: Law,
    index: usize,
    code: u8,
) -> Result<bool, String> {
    let name = format!("code {code} decoded at {state:?}");
    peer.set_state(state);
    let ours = sample::decode(state, law, WIDTH, code);
    let theirs = peer.decode(&[code])[0];
    same(&name, law, index, "byte", ours.byte, theirs)?;
    same(&name, law, index, "state", ours.state, peer.state())?;
    Ok(ours.byte != ours.compressed)
}

fn same<T: PartialEq + std::fmt::Debug>(
    name: &str,
    law: Law,
    index: usize,
    what: &str,
    ours: T,
    theirs: T,
) -> Result<(), String> {
    if ours == theirs {
        Ok(())
    } else {
        Err(format!(
            "{name}, {law:?}-law, sample {index}: {what} {ours:?} here, {theirs:?} in spandsp"
        ))
    }
}
