//! Every reply of every call, the order of the rows where two or more apply, the limit cases,
//! and that a refused call writes nothing and keeps the state.

mod support;

use random::states::PAIRS;
use random::Random;
use second::calls::{encode, reset};
use second::state::State;
use support::asked::{
    decoded, decoding_in_order, dropped, encoded, head_octets, in_order, numbered_frame,
    sound_decoding, sound_dropping, sound_encoding, sound_frame, Decoding, Dropping, Encoding,
    Fault, DECODING_FAULTS,
};

#[test]
fn encode_answers_4_9_5_1_2_3_in_this_order() {
    let faults: [Fault<Encoding>; 6] = [
        (4, |ask| ask.state.ap = 513),
        (9, |ask| ask.law = 2),
        (5, |ask| ask.edition = 3),
        (1, |ask| ask.width = 2),
        (2, |ask| ask.samples = 12),
        (3, |ask| ask.room = 1),
    ];
    for (edition, room) in [(1, 12), (2, 13)] {
        let sound = Encoding {
            edition,
            room,
            ..sound_encoding()
        };
        in_order(sound, &faults, encoded);
    }
}

#[test]
fn decode_answers_4_9_5_1_2_6_7_10_3_in_this_order() {
    decoding_in_order(DECODING_FAULTS.into_iter(), decoded);
}

#[test]
fn drop_answers_5_1_2_6_8_3_in_this_order() {
    let faults: [Fault<Dropping>; 6] = [
        (5, |ask| ask.frame[0] &= 0b0011_1111),
        (1, |ask| ask.frame[0] = ask.frame[0] & 0b1111_1000 | 7),
        (2, |ask| ask.frame[1] = 41),
        (6, |ask| ask.frame.truncate(11)),
        (8, |ask| ask.target = 2),
        (3, |ask| ask.room = 3),
    ];
    for (frame, room) in [(sound_frame(), 10), (numbered_frame(77), 11)] {
        let sound = Dropping {
            frame,
            room,
            ..sound_dropping()
        };
        in_order(sound, &faults, dropped);
    }
}

/// The column of reset values, as the table of ranges has it.
fn at_reset(core: u8) -> State {
    State {
        yu: 544,
        yl: 34_816,
        dms: 0,
        dml: 0,
        ap: 0,
        a1: 0,
        a2: 0,
        b: [0; 6],
        dq: [32; 6],
        sr1: 32,
        sr2: 32,
        pk1: 0,
        pk2: 0,
        td: 0,
        core,
        number: 0,
    }
}

#[test]
fn reset_answers_1_for_any_other_core_and_gives_core_2() {
    for core in 0..=255 {
        let answer = reset(core);
        let (number, granted) = match core {
            2..=4 => (0, core),
            _ => (1, 2),
        };
        assert_eq!((answer.number, answer.octets), (number, 0));
        assert_eq!(answer.state, at_reset(granted));
    }
}

#[test]
fn only_laws_0_and_1_and_the_nine_pairs() {
    for number in 0..=255 {
        let law = Encoding {
            law: number,
            ..sound_encoding()
        };
        assert_eq!(encoded(&law), if number < 2 { 0 } else { 9 });
        for core in 2..=4 {
            let width = Encoding {
                width: number,
                state: State::reset(core),
                room: 2_000,
                ..sound_encoding()
            };
            let pair = PAIRS.contains(&(number, core));
            assert_eq!(encoded(&width), if pair { 0 } else { 1 });
        }
    }
}

#[test]
fn sample_counts_of_the_encoder() {
    for (edition, samples) in (0..=700).flat_map(|samples| [(1, samples), (2, samples)]) {
        let ask = Encoding {
            edition,
            samples,
            room: 1_000,
            ..sound_encoding()
        };
        let sound = samples % 8 == 0 && (8..=320).contains(&samples);
        assert_eq!(encoded(&ask), if sound { 0 } else { 2 }, "{samples}");
    }
}

#[test]
fn the_encoder_needs_room_for_exactly_the_frame() {
    for (width, core) in PAIRS {
        for (edition, samples) in [(1, 8), (1, 16), (1, 320), (2, 8), (2, 16), (2, 320)] {
            let octets = head_octets(edition) + usize::from(width) * samples / 8;
            let state = State::reset(core);
            for (room, due) in [(0, 3), (octets - 1, 3), (octets, 0), (octets + 1, 0)] {
                let ask = Encoding {
                    state,
                    law: 1,
                    edition,
                    width,
                    samples,
                    room,
                };
                assert_eq!(encoded(&ask), due);
            }
        }
    }
}

#[test]
fn every_first_octet_of_a_frame() {
    for first in 0..=255_u8 {
        let (edition, width, core) = (first >> 6, first >> 3 & 7, first & 7);
        let due = match (edition, PAIRS.contains(&(width, core)), core) {
            (0 | 3, _, _) => 5,
            (_, false, _) => 1,
            (_, _, 3) => 0,
            _ => 7,
        };
        let mut frame = vec![first, 1, 0];
        frame.truncate(head_octets(edition));
        frame.extend(vec![0x5A; usize::from(width)]);
        let ask = Decoding {
            frame: frame.clone(),
            ..sound_decoding()
        };
        assert_eq!(decoded(&ask), due, "{first:02X}");
        let drop = Dropping {
            frame,
            target: width,
            room: 20,
        };
        let due_of_drop = if due == 7 { 0 } else { due };
        assert_eq!(dropped(&drop), due_of_drop, "{first:02X}");
    }
}

/// A frame at (2,2) with g groups.
fn frame_of(groups: u8) -> Vec<u8> {
    let mut frame = vec![0x52, groups];
    frame.extend(vec![0x33; 2 * usize::from(groups)]);
    frame
}

#[test]
fn every_g_of_a_frame() {
    for groups in 0..=255 {
        let ask = Decoding {
            state: State::reset(2),
            frame: frame_of(groups),
            room: 2_100,
            ..sound_decoding()
        };
        let due = if (1..=40).contains(&groups) { 0 } else { 2 };
        assert_eq!(decoded(&ask), due, "g {groups}");
        let drop = Dropping {
            frame: frame_of(groups),
            target: 2,
            room: 600,
        };
        assert_eq!(dropped(&drop), due, "g {groups}");
    }
}

#[test]
fn frames_of_no_to_three_octets() {
    let frames: [(&[u8], u8); 17] = [
        (&[], 5),
        (&[0x6B], 5),
        (&[0xAB], 5),
        (&[0x2B, 2], 5),
        (&[0xEB, 2], 5),
        (&[0x7B, 2], 1),
        (&[0xBB, 2], 1),
        (&[0x6B, 0], 2),
        (&[0xAB, 0], 2),
        (&[0x6B, 2], 6),
        (&[0xAB, 2], 6),
        (&[0x2B, 2, 0], 5),
        (&[0xEB, 2, 0], 5),
        (&[0xBB, 2, 0], 1),
        (&[0xAB, 41, 0], 2),
        (&[0x6B, 2, 0], 6),
        (&[0xAB, 2, 0], 6),
    ];
    for (frame, due) in frames {
        let ask = Decoding {
            frame: frame.to_vec(),
            ..sound_decoding()
        };
        assert_eq!(decoded(&ask), due, "{frame:?}");
        let drop = Dropping {
            frame: frame.to_vec(),
            ..sound_dropping()
        };
        assert_eq!(dropped(&drop), due, "{frame:?}");
    }
}

#[test]
fn a_frame_too_long_or_too_short_by_one() {
    let [plain, numbered] = [sound_frame(), numbered_frame(0)];
    for (sound, length) in [(&plain, 11), (&plain, 13), (&numbered, 12), (&numbered, 14)] {
        let mut frame = sound.clone();
        frame.resize(length, 0);
        let ask = Decoding {
            frame: frame.clone(),
            ..sound_decoding()
        };
        assert_eq!(decoded(&ask), 6);
        let drop = Dropping {
            frame,
            ..sound_dropping()
        };
        assert_eq!(dropped(&drop), 6);
    }
}

#[test]
fn the_decoder_needs_room_for_exactly_the_samples() {
    for groups in [1, 2, 40] {
        let samples = 8 * usize::from(groups);
        for (room, due) in [(0, 3), (samples - 1, 3), (samples, 0), (samples + 1, 0)] {
            let ask = Decoding {
                state: State::reset(2),
                frame: frame_of(groups),
                room,
                ..sound_decoding()
            };
            assert_eq!(decoded(&ask), due);
        }
    }
}

#[test]
fn target_widths_and_room_of_dropping() {
    for target in 0..=255 {
        let ask = Dropping {
            target,
            room: 600,
            ..sound_dropping()
        };
        let due = if (3..=5).contains(&target) { 0 } else { 8 };
        assert_eq!(dropped(&ask), due, "target {target}");
    }
    for (frame, octets) in [(sound_frame(), 10), (numbered_frame(9), 11)] {
        for (room, due) in [(0, 3), (octets - 1, 3), (octets, 0), (octets + 1, 0)] {
            let ask = Dropping {
                frame: frame.clone(),
                room,
                ..sound_dropping()
            };
            assert_eq!(dropped(&ask), due, "room {room}");
        }
    }
}

/// A spoiled state is refused whichever field is spoiled, and comes back as it was.
#[test]
fn a_state_out_of_range_in_any_field_is_refused() {
    let faults: [fn(&mut State); 15] = [
        |s| s.yu = 5_121,
        |s| s.yl = 34_815,
        |s| s.yl = u32::MAX,
        |s| s.dms = 3_585,
        |s| s.dml = 14_337,
        |s| s.ap = 65_535,
        |s| s.dq[0] = 0,
        |s| s.dq[5] = 992,
        |s| s.sr1 = 2_080,
        |s| s.sr2 = 31,
        |s| s.pk1 = 2,
        |s| s.pk2 = 256,
        |s| s.td = 2,
        |s| s.core = 5,
        |s| s.core = 1,
    ];
    for fault in faults {
        let mut state = State::reset(3);
        fault(&mut state);
        let encoding = Encoding {
            state,
            ..sound_encoding()
        };
        assert_eq!(encoded(&encoding), 4, "{state:?}");
        let decoding = Decoding {
            state,
            ..sound_decoding()
        };
        assert_eq!(decoded(&decoding), 4, "{state:?}");
    }
}

#[test]
fn a_refused_call_may_be_made_again_as_if_it_had_not_been() {
    let pcm = Random::new(21).bytes(64);
    let start = State::reset(4);
    let mut straight = [0; 42];
    let wanted = encode(start, 0, 1, 5, &pcm, &mut straight);
    let mut out = [0; 42];
    let refused = encode(start, 0, 1, 5, &pcm, &mut out[..41]);
    assert_eq!(refused.number, 3);
    assert_eq!(encode(refused.state, 0, 1, 5, &pcm, &mut out), wanted);
    assert_eq!(out, straight);
}
