//! Calls of the codec as tests ask for them: sound ones, which a test spoils in some places, and
//! the number that each answers. Everything else that an answer says is looked at here, and so is
//! that the linear call of the same kind answers alike.

use random::Random;
use second::calls::{
    decode, decode_linear, drop_planes, encode, encode_linear, DecodeLinearAnswer, EncodeAnswer,
};
use second::g711::{expand, Law};
use second::state::State;

const FILL: u8 = 0xA5;
/// No sample that a decoder gives.
const LINEAR_FILL: i16 = -0x5A5B;

/// The length of a header.
pub fn head_octets(edition: u8) -> usize {
    match edition {
        2 => 3,
        _ => 2,
    }
}

/// The number that is due behind a frame done.
fn number_behind(state: &State, edition: u8) -> u8 {
    match (edition, state.number) {
        (2, 255) => 0,
        (2, number) => number + 1,
        (_, number) => number,
    }
}

/// What the encoder is asked; each test spoils some of it.
#[derive(Clone)]
pub struct Encoding {
    pub state: State,
    pub law: u8,
    pub edition: u8,
    pub width: u8,
    pub samples: usize,
    pub room: usize,
}

pub fn sound_encoding() -> Encoding {
    Encoding {
        state: State::reset(3),
        law: 0,
        edition: 1,
        width: 5,
        samples: 16,
        room: 12,
    }
}

pub fn encoded(ask: &Encoding) -> u8 {
    let pcm = Random::new(20).bytes(ask.samples);
    let mut out = vec![FILL; ask.room];
    let answer = encode(ask.state, ask.law, ask.edition, ask.width, &pcm, &mut out);
    let octets = head_octets(ask.edition) + usize::from(ask.width) * ask.samples / 8;
    look_at_frame(&ask.state, ask.edition, octets, &answer, &out);
    if let Some(law) = Law::from_number(ask.law) {
        let samples: Vec<i16> = pcm.iter().map(|&byte| expand(law, byte) as i16).collect();
        let mut other = vec![FILL; ask.room];
        let linear = encode_linear(ask.state, ask.edition, ask.width, &samples, &mut other);
        assert_eq!((linear, other), (answer, out));
    }
    answer.number
}

/// An encoder's answer, whichever samples it was given: a frame of so many octets, or nothing.
fn look_at_frame(state: &State, edition: u8, octets: usize, answer: &EncodeAnswer, out: &[u8]) {
    if answer.number == 0 {
        assert_eq!((answer.octets, out[0] >> 6), (octets, edition));
        if edition == 2 {
            assert_eq!(out[2], state.number);
        }
        assert_eq!(answer.state.number, number_behind(state, edition));
        assert!(out[octets..].iter().all(|&octet| octet == FILL));
        assert_ne!(answer.state, *state);
    } else {
        assert_eq!((answer.octets, answer.state), (0, *state));
        assert!(out.iter().all(|&octet| octet == FILL));
    }
}

/// What the encoder of linear samples is asked.
#[derive(Clone)]
pub struct LinearEncoding {
    pub state: State,
    pub edition: u8,
    pub width: u8,
    pub samples: Vec<i16>,
    pub room: usize,
}

pub fn sound_linear_encoding() -> LinearEncoding {
    LinearEncoding {
        state: State::reset(3),
        edition: 1,
        width: 5,
        samples: linear_samples(16),
        room: 12,
    }
}

/// So many from the whole scale, both ends among the first.
pub fn linear_samples(count: usize) -> Vec<i16> {
    let mut random = Random::new(22);
    let drawn = |place| match place {
        0 => -8_192,
        1 => 8_191,
        _ => random.below(16_384) as i16 - 8_192,
    };
    (0..count).map(drawn).collect()
}

pub fn linearly_encoded(ask: &LinearEncoding) -> u8 {
    let mut out = vec![FILL; ask.room];
    let answer = encode_linear(ask.state, ask.edition, ask.width, &ask.samples, &mut out);
    let octets = head_octets(ask.edition) + usize::from(ask.width) * ask.samples.len() / 8;
    look_at_frame(&ask.state, ask.edition, octets, &answer, &out);
    answer.number
}

/// What the decoder is asked.
#[derive(Clone)]
pub struct Decoding {
    pub state: State,
    pub law: u8,
    pub frame: Vec<u8>,
    pub room: usize,
}

/// A frame of two groups at (5,3).
pub fn sound_frame() -> Vec<u8> {
    vec![
        0x6B, 2, 0x12, 0x34, 0x56, 0x78, 0x9A, 0xBC, 0xDE, 0xF0, 0x0F, 0x1E,
    ]
}

/// The same planes in edition 2.
pub fn numbered_frame(number: u8) -> Vec<u8> {
    let mut frame = vec![0xAB, 2, number];
    frame.extend(&sound_frame()[2..]);
    frame
}

pub fn sound_decoding() -> Decoding {
    Decoding {
        state: State::reset(3),
        law: 1,
        frame: sound_frame(),
        room: 16,
    }
}

pub fn decoded(ask: &Decoding) -> u8 {
    let mut out = vec![FILL; ask.room];
    let answer = decode(ask.state, ask.law, &ask.frame, &mut out);
    let counted = DecodeLinearAnswer {
        number: answer.number,
        samples: answer.octets,
        disagreements: answer.disagreements,
        state: answer.state,
    };
    look_at_samples(ask, &counted, &out, FILL);
    if Law::from_number(ask.law).is_some() {
        assert_eq!(linearly_decoded(ask), answer.number);
    }
    answer.number
}

/// The law plays no part.
pub fn linearly_decoded(ask: &Decoding) -> u8 {
    let mut out = vec![LINEAR_FILL; ask.room];
    let answer = decode_linear(ask.state, &ask.frame, &mut out);
    look_at_samples(ask, &answer, &out, LINEAR_FILL);
    assert_eq!(answer.disagreements, 0);
    answer.number
}

/// A decoder's answer, whichever samples it gives: as many as the frame has, or nothing.
fn look_at_samples<T: PartialEq + Copy>(
    ask: &Decoding,
    answer: &DecodeLinearAnswer,
    out: &[T],
    fill: T,
) {
    if answer.number == 0 {
        let samples = 8 * usize::from(ask.frame[1]);
        let number = number_behind(&ask.state, ask.frame[0] >> 6);
        assert_eq!((answer.samples, answer.state.number), (samples, number));
        assert!(answer.disagreements <= samples);
        assert_ne!(answer.state, ask.state);
    } else {
        assert_eq!((answer.samples, answer.disagreements), (0, 0));
        assert_eq!(answer.state, ask.state);
    }
    assert!(out[answer.samples..].iter().all(|&sample| sample == fill));
}

/// What is asked of dropping.
#[derive(Clone)]
pub struct Dropping {
    pub frame: Vec<u8>,
    pub target: u8,
    pub room: usize,
}

pub fn sound_dropping() -> Dropping {
    Dropping {
        frame: sound_frame(),
        target: 4,
        room: 10,
    }
}

pub fn dropped(ask: &Dropping) -> u8 {
    let mut out = vec![FILL; ask.room];
    let answer = drop_planes(&ask.frame, ask.target, &mut out);
    if answer.number == 0 {
        let planes = usize::from(ask.target) * usize::from(ask.frame[1]);
        let octets = head_octets(ask.frame[0] >> 6) + planes;
        assert_eq!((answer.octets, out[0] >> 6), (octets, ask.frame[0] >> 6));
        assert_eq!(out[2..octets], ask.frame[2..octets]);
        assert!(out[octets..].iter().all(|&octet| octet == FILL));
    } else {
        assert_eq!(answer.octets, 0);
        assert!(out.iter().all(|&octet| octet == FILL));
    }
    answer.number
}

/// A way to spoil a call, with the reply that is then due.
pub type Fault<T> = (u8, fn(&mut T));

/// Of a decoder, in the order of its rows. The header's faults leave the others in place: a frame one
/// octet too long is so for any x and g, and core 4 at width 5 is a pair.
pub const DECODING_FAULTS: [Fault<Decoding>; 9] = [
    (4, |ask| ask.state.yu = 543),
    (9, |ask| ask.law = 255),
    (5, |ask| ask.frame[0] |= 0b1100_0000),
    (1, |ask| {
        ask.frame[0] = ask.frame[0] & 0b1100_0111 | 0b0011_0000
    }),
    (2, |ask| ask.frame[1] = 0),
    (6, |ask| ask.frame.push(0)),
    (7, |ask| ask.frame[0] = ask.frame[0] & 0b1111_1000 | 4),
    (10, |ask| ask.state.number = 200),
    (3, |ask| ask.room = 0),
];

/// Spoils a sound decoding in every combination of these faults, with a frame of either edition. One of
/// edition 1 has no number that could be wrong.
pub fn decoding_in_order(
    faults: impl Iterator<Item = Fault<Decoding>> + Clone,
    answer: fn(&Decoding) -> u8,
) {
    let numbered = Decoding {
        frame: numbered_frame(0),
        ..sound_decoding()
    };
    in_order(numbered, &Vec::from_iter(faults.clone()), answer);
    let of_edition_1 = faults.filter(|fault| fault.0 != 10);
    in_order(sound_decoding(), &Vec::from_iter(of_edition_1), answer);
}

/// Spoils a sound call in every combination of faults. The list is in the order of the rows, so
/// that the first fault of a combination decides.
pub fn in_order<T: Clone>(sound: T, faults: &[Fault<T>], answer: fn(&T) -> u8) {
    for chosen in 0..1_u32 << faults.len() {
        let mut ask = sound.clone();
        let of_this: Vec<&Fault<T>> = (0..faults.len())
            .filter(|place| chosen >> place & 1 == 1)
            .map(|place| &faults[place])
            .collect();
        for (_, spoil) in &of_this {
            spoil(&mut ask);
        }
        let due = of_this.first().map_or(0, |fault| fault.0);
        assert_eq!(answer(&ask), due, "faults {chosen:b}");
    }
}
