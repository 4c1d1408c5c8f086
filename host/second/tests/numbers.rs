//! Editions and frame numbers: which editions there are, what the number of a frame is held to,
//! how both ends move it on, and that edition 1 neither tests nor moves it.

mod support;

use random::states::PAIRS;
use random::Random;
use second::calls::{decode, encode};
use second::state::State;
use support::asked::{
    decoded, dropped, encoded, numbered_frame, sound_decoding, sound_dropping, sound_encoding,
    sound_frame, Decoding, Dropping, Encoding,
};

/// Both ends of an octet, and its middle.
const TURNING_NUMBERS: [u8; 6] = [0, 1, 127, 128, 254, 255];

fn at_number(number: u8) -> State {
    State {
        number,
        ..State::reset(3)
    }
}

#[test]
fn editions_1_and_2_are_encoded_and_no_other() {
    for edition in 0..=255 {
        let ask = Encoding {
            edition,
            room: 13,
            ..sound_encoding()
        };
        let due = if [1, 2].contains(&edition) { 0 } else { 5 };
        assert_eq!(encoded(&ask), due, "edition {edition}");
    }
}

/// What the encoder writes and moves on to is looked at in `encoded`.
#[test]
fn the_encoder_writes_any_number_that_the_state_has() {
    for number in 0..=255 {
        for (edition, room) in [(1, 12), (2, 13)] {
            let ask = Encoding {
                state: at_number(number),
                edition,
                room,
                ..sound_encoding()
            };
            assert_eq!(encoded(&ask), 0, "number {number} in edition {edition}");
        }
    }
}

#[test]
fn the_decoder_takes_the_due_number_and_no_other() {
    for due in TURNING_NUMBERS {
        for borne in 0..=255 {
            let ask = Decoding {
                state: at_number(due),
                frame: numbered_frame(borne),
                ..sound_decoding()
            };
            let reply = if borne == due { 0 } else { 10 };
            assert_eq!(decoded(&ask), reply, "{borne} where {due} is due");
        }
    }
}

/// The third octet is the first plane's there, and no number.
#[test]
fn edition_1_is_decoded_at_any_number() {
    for number in 0..=255 {
        for third in TURNING_NUMBERS {
            let mut frame = sound_frame();
            frame[2] = third;
            let ask = Decoding {
                state: at_number(number),
                frame,
                ..sound_decoding()
            };
            assert_eq!(decoded(&ask), 0, "{third} at the number {number}");
        }
    }
}

/// That the octet is kept is looked at in `dropped`.
#[test]
fn dropping_tests_no_number() {
    for number in 0..=255 {
        for target in 3..=5 {
            let ask = Dropping {
                frame: numbered_frame(number),
                target,
                room: 13,
            };
            assert_eq!(dropped(&ask), 0, "number {number}, target {target}");
        }
    }
}

/// Of a frame that would be whole, so that nothing but the edition is wrong.
#[test]
fn the_four_editions_of_a_header() {
    for (edition, due) in [(0, 5), (1, 0), (2, 0), (3, 5)] {
        let mut frame = if edition == 1 {
            sound_frame()
        } else {
            numbered_frame(0)
        };
        frame[0] = edition << 6 | frame[0] & 0b0011_1111;
        let decoding = Decoding {
            frame: frame.clone(),
            ..sound_decoding()
        };
        assert_eq!(decoded(&decoding), due, "edition {edition}");
        let dropping = Dropping {
            frame,
            room: 11,
            ..sound_dropping()
        };
        assert_eq!(dropped(&dropping), due, "edition {edition}");
    }
}

#[test]
fn the_number_goes_from_255_to_0_at_both_ends() {
    let mut random = Random::new(30);
    let (mut sender, mut receiver) = (State::reset(2), State::reset(2));
    for place in 0..700 {
        let mut frame = [0; 8];
        let sent = encode(sender, 0, 2, 5, &random.bytes(8), &mut frame);
        assert_eq!((sent.octets, usize::from(frame[2])), (8, place % 256));
        let received = decode(receiver, 0, &frame, &mut [0; 8]);
        assert_eq!((received.number, received.state), (0, sent.state));
        (sender, receiver) = (sent.state, received.state);
    }
}

/// One input at one state, but for the edition: the planes are the same, and so are the states but
/// for the number.
#[test]
fn both_editions_carry_the_same_planes() {
    let mut random = Random::new(31);
    for (width, core) in PAIRS {
        let state = State {
            number: random.byte(),
            ..State::reset(core)
        };
        let pcm = random.bytes(48);
        let octets = 6 * usize::from(width);
        let (mut plain, mut numbered) = (vec![0; 2 + octets], vec![0; 3 + octets]);
        let first = encode(state, 1, 1, width, &pcm, &mut plain).state;
        let second = encode(state, 1, 2, width, &pcm, &mut numbered).state;
        assert_eq!(plain[2..], numbered[3..]);
        assert_eq!((plain[1], state.number), (numbered[1], numbered[2]));
        let number = state.number.wrapping_add(1);
        assert_eq!(second, State { number, ..first });
    }
}
