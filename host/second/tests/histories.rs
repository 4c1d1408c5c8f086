//! Histories of one encoder and one decoder, both from reset: frames of both editions are written,
//! with refused calls among them, and on the way they are lost, doubled, held up, thinned and mixed
//! with another encoder's. A numbered frame is taken exactly where its place among the encoder's
//! numbered ones equals, modulo 256, the count of those taken before it.

use random::Random;
use second::calls::{decode, drop_planes, encode, DecodeAnswer};
use second::state::State;

/// A frame as it was written, with its place, from 0, among its encoder's frames of edition 2.
#[derive(Clone)]
struct Written {
    place: Option<usize>,
    octets: Vec<u8>,
}

/// One call of the encoder; no frame where it is refused.
fn one_call(random: &mut Random, state: &mut State) -> Option<Vec<u8>> {
    let core = u64::from(state.core);
    let width = (core + random.below(6 - core)) as u8;
    let edition = random.pick(&[1, 2, 2, 2, 2, 3, 0]);
    let samples = random.pick(&[8, 8, 8, 16, 24, 12]);
    let law = random.pick(&[0, 0, 0, 1, 1, 1, 2]);
    let mut out = vec![0; random.pick(&[18, 18, 18, 1])];
    let answer = encode(
        *state,
        law,
        edition,
        width,
        &random.bytes(samples),
        &mut out,
    );
    *state = answer.state;
    out.truncate(answer.octets);
    (answer.number == 0).then_some(out)
}

/// All that an encoder writes in so many calls.
fn written(random: &mut Random, core: u8, calls: usize) -> Vec<Written> {
    let mut state = State::reset(core);
    let mut numbered = 0..;
    let made = (0..calls).filter_map(|_| one_call(random, &mut state));
    made.map(|octets| Written {
        place: (octets[0] >> 6 == 2).then(|| numbered.next()).flatten(),
        octets,
    })
    .collect()
}

/// The frame thinned up to three times, each time to a width that it may have.
fn thinned(random: &mut Random, frame: &[u8]) -> Vec<u8> {
    let mut frame = frame.to_vec();
    for _ in 0..random.below(4) {
        let (width, core) = (frame[0] >> 3 & 7, frame[0] & 7);
        let target = core + random.below(u64::from(width - core) + 1) as u8;
        let mut out = vec![0; frame.len()];
        let answer = drop_planes(&frame, target, &mut out);
        assert_eq!(answer.number, 0);
        out.truncate(answer.octets);
        frame = out;
    }
    frame
}

/// Which frame comes next: mostly the one behind the last, else any step back or ahead, or one that
/// has the due number, so that a decoder that has lost step gets into it again.
fn next_index(random: &mut Random, frames: &[Written], last: usize, due: u8) -> usize {
    let bears_due = |index: &usize| {
        let frame = &frames[index % frames.len()];
        frame.place.is_some() && frame.octets[2] == due
    };
    let index = match random.below(24) {
        0 => last,
        1 => last.saturating_sub(1),
        2 => last + 2,
        3 => random.below(frames.len() as u64) as usize,
        4..=7 => (last..last + frames.len()).find(bears_due).unwrap_or(last),
        _ => last + 1,
    };
    index % frames.len()
}

struct Decoder {
    state: State,
    /// How many frames of edition 2 it has taken.
    taken: usize,
}

impl Decoder {
    fn new(core: u8) -> Decoder {
        Decoder {
            state: State::reset(core),
            taken: 0,
        }
    }

    /// Hands it a frame, and looks that a refusal leaves everything as it was.
    fn receive(&mut self, frame: &[u8]) -> DecodeAnswer {
        let mut out = [0xA5; 24];
        let answer = decode(self.state, 0, frame, &mut out);
        if answer.number != 0 {
            assert_eq!(answer.state, self.state);
            assert_eq!(
                (answer.octets, answer.disagreements, out),
                (0, 0, [0xA5; 24])
            );
        }
        self.state = answer.state;
        self.taken += usize::from(answer.number == 0 && frame[0] >> 6 == 2);
        answer
    }
}

/// The places of this encoder's numbered frames that were taken, each with the count before it.
fn taken_in_history(random: &mut Random, core: u8) -> Vec<(usize, usize)> {
    let ours = written(random, core, 3_000);
    let others = written(random, core, 60);
    let mut decoder = Decoder::new(core);
    let mut last = 0;
    let mut taken = Vec::new();
    for _ in 0..4_000 {
        if random.below(40) == 0 {
            let other = &others[random.below(others.len() as u64) as usize];
            decoder.receive(&thinned(random, &other.octets));
        }
        last = next_index(random, &ours, last, decoder.state.number);
        let (frame, before) = (&ours[last], decoder.taken);
        let reply = decoder.receive(&thinned(random, &frame.octets)).number;
        let due = frame.place.is_none_or(|place| place % 256 == before % 256);
        assert_eq!(reply, if due { 0 } else { 10 });
        taken.extend(frame.place.filter(|_| due).map(|place| (place, before)));
    }
    taken
}

#[test]
fn a_numbered_frame_is_taken_exactly_at_its_place_modulo_256() {
    let mut random = Random::new(40);
    for core in 2..=4 {
        let taken = taken_in_history(&mut random, core);
        assert!(taken.len() > 300, "{} were taken", taken.len());
        let mistaken = taken.iter().filter(|(place, before)| place != before);
        assert!(mistaken.count() > 0, "no frame was 256 places off");
    }
}

/// Hands both ends numbered frames until so many were written and taken.
fn in_step(random: &mut Random, core: u8, frames: usize) -> (State, Decoder) {
    let (mut sender, mut decoder) = (State::reset(core), Decoder::new(core));
    for _ in 0..frames {
        let frame = next_frame(random, &mut sender, 2);
        assert_eq!(decoder.receive(&frame).number, 0);
        assert_eq!(decoder.state, sender);
    }
    (sender, decoder)
}

fn next_frame(random: &mut Random, sender: &mut State, edition: u8) -> Vec<u8> {
    let mut out = vec![0; 18];
    let answer = encode(*sender, 0, edition, 5, &random.bytes(8), &mut out);
    *sender = answer.state;
    out.truncate(answer.octets);
    out
}

#[test]
fn one_lost_frame_has_the_next_255_refused_and_the_256th_taken() {
    let mut random = Random::new(41);
    for core in 2..=4 {
        for before in [0, 1, 5, 255, 256, 300] {
            let (mut sender, mut decoder) = in_step(&mut random, core, before);
            let lost = next_frame(&mut random, &mut sender, 2);
            for _ in 0..255 {
                let late = next_frame(&mut random, &mut sender, 2);
                assert_eq!(decoder.receive(&late).number, 10);
                let plain = next_frame(&mut random, &mut sender, 1);
                assert_eq!(decoder.receive(&plain).number, 0);
            }
            assert_eq!((decoder.taken, decoder.state.number), (before, lost[2]));
            let mistaken = next_frame(&mut random, &mut sender, 2);
            assert_eq!(mistaken[2], lost[2]);
            assert_eq!(decoder.receive(&mistaken).number, 0);
        }
    }
}

/// A number says nothing of which stream it is from: one from before the reset is taken too.
#[test]
fn a_frame_from_before_the_reset_is_taken_where_its_number_is_due() {
    let mut random = Random::new(42);
    let (mut sender, _) = in_step(&mut random, 3, 4);
    let old = next_frame(&mut random, &mut sender, 2);
    let (_, mut decoder) = in_step(&mut random, 3, 3);
    assert_eq!(decoder.receive(&old).number, 10);
    let (_, mut decoder) = in_step(&mut random, 3, 4);
    assert_eq!(decoder.receive(&old).number, 0);
}

/// Edition 1 has no number, and what is lost in it is not seen.
#[test]
fn a_lost_frame_of_edition_1_is_not_seen() {
    let mut random = Random::new(43);
    let (mut sender, mut decoder) = in_step(&mut random, 2, 9);
    next_frame(&mut random, &mut sender, 1);
    let numbered = next_frame(&mut random, &mut sender, 2);
    assert_eq!(decoder.receive(&numbered).number, 0);
    assert_eq!(decoder.state.number, sender.number);
    assert_ne!(decoder.state, sender);
}
