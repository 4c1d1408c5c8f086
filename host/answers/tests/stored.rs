//! The stored lines, judged: by the rules where they say what is due, and by each other where a law ties them.

mod support;

use answers::call::Call;
use answers::groups::ends::{meeting, Meeting};
use answers::page::Item;
use second::frame::{read_header, unpack};
use second::g711::Law;
use second::sample;
use second::state::State;
use std::collections::BTreeSet;
use support::stored;

#[test]
fn what_the_rules_say_is_stored() {
    let stored = stored();
    assert_eq!(stored.page.items.len(), stored.lines.len());
    for (place, item) in stored.page.items.iter().enumerate() {
        let line = &stored.lines[place];
        match item {
            Item::Call(call, due) => {
                let (asked, answer) = line.split_once(" = ").expect("an answer");
                assert_eq!(asked, call.to_string());
                let judged = due.hold(call, answer);
                assert!(judged.is_ok(), "line {}: {judged:?}: {line}", place + 1);
            }
            Item::Other(_, due) => {
                let numbered = format!("# line {}:", place + 1);
                assert_eq!(*line, due.replace("# line N:", &numbered));
            }
            Item::Group(..) | Item::Note(_) => assert_eq!(*line, item.line()),
        }
    }
}

/// By the rules the greatest level of A-law is 8,064, that of mu-law 8,031.
#[test]
fn the_greatest_levels() {
    let stored = stored();
    for (law, due) in [("0", 8_031), ("1", 8_064)] {
        let levels = stored.lines.iter().filter_map(|line| {
            let fields: Vec<&str> = line.split(' ').collect();
            let level: i32 = fields.get(4)?.parse().ok()?;
            (fields[0] == "level" && fields[1] == law).then_some(level)
        });
        let sizes: Vec<i32> = levels.map(|level| level.min(16_384 - level)).collect();
        assert_eq!((sizes.len(), sizes.iter().max()), (256, Some(&due)));
    }
}

/// Demand 3, on what is stored: after every frame the decoder's state is the encoder's.
#[test]
fn both_ends_have_one_state() {
    let stored = stored();
    for group in ["streams", "jumps", "wraps", "linear-streams"] {
        for three in stored.group(group).chunks(3) {
            let [(_, sent), (_, thin), (_, decoded)] = three else {
                panic!("a frame is three lines");
            };
            assert_eq!([sent.number, thin.number, decoded.number], [0; 3]);
            assert_eq!(sent.state, decoded.state);
        }
    }
    for two in stored.group("changed").chunks(2) {
        assert_eq!((two[0].1.state, two[0].1.number), (two[1].1.state, 0));
    }
}

/// A state goes on from frame to frame, and does not begin anew where the width changes.
#[test]
fn a_stream_goes_on() {
    for four in stored().group("changed").chunks(4) {
        let Call::Encode(second) = four[2].0 else {
            panic!("the second frame is encoded");
        };
        assert_eq!(Some(second.state), four[0].1.state);
        assert_ne!(four[2].1.state, four[0].1.state);
    }
}

/// From 253 on, with two frames of edition 1 among eight.
#[test]
fn the_numbers_go_on_across_the_wrap() {
    for frames in stored().group("wraps").chunks(24) {
        let numbers = frames.chunks(3).filter_map(|three| match three[0].0 {
            Call::Encode(c) if c.edition == 2 => Some(three[1].1.out[2]),
            _ => None,
        });
        assert_eq!(numbers.collect::<Vec<_>>(), [253, 254, 255, 0, 1, 2]);
    }
}

/// What a stream has come to: the frames of edition 2 in the order in which they were written, and how many were taken.
#[derive(Default)]
struct History {
    written: Vec<Vec<u8>>,
    taken: usize,
}

impl History {
    fn is_due(&self, frame: &[u8]) -> bool {
        let place = self.written.iter().position(|written| written == frame);
        place.expect("a frame that was written") % 256 == self.taken % 256
    }
}

/// A frame of edition 2 is taken exactly where its place equals, modulo 256, the count of those taken before it.
#[test]
fn a_numbered_frame_is_taken_at_its_place() {
    let mut history = History::default();
    let mut refused = 0;
    for (call, answer) in stored().group("lost") {
        match call {
            Call::Encode(c) => {
                if c.state == State::reset(c.state.core) {
                    history = History::default();
                }
                let numbered = (c.edition == 2).then_some(answer.out);
                history.written.extend(numbered);
            }
            Call::Decode(c) if c.frame[0] >> 6 == 2 => {
                let due = history.is_due(&c.frame);
                assert_eq!(answer.number, if due { 0 } else { 10 });
                history.taken += usize::from(due);
                refused += usize::from(!due);
            }
            _ => assert_eq!(answer.number, 0),
        }
    }
    assert!(refused > 255);
}

#[test]
fn a_dropped_frame_is_the_narrower_encoder_s() {
    for three in stored().group("dropped").chunks(3) {
        let [(_, whole), (_, narrow), (_, dropped)] = three else {
            panic!("three lines for a pair");
        };
        assert_eq!(
            (&dropped.out, dropped.written),
            (&narrow.out, narrow.written)
        );
        assert_eq!(whole.state, narrow.state);
    }
}

/// Planes of 40 octets, and of 20 and 20.
#[test]
fn two_halves_are_one_whole() {
    for three in stored().group("halves").chunks(3) {
        let planes = |at: usize, g: usize| three[at].1.out[2..].chunks(g).map(<[u8]>::to_vec);
        let joined: Vec<Vec<u8>> = planes(1, 20)
            .zip(planes(2, 20))
            .map(|(a, b)| [a, b].concat())
            .collect();
        assert_eq!(planes(0, 40).collect::<Vec<_>>(), joined);
        assert_eq!(three[0].1.state, three[2].1.state);
    }
}

#[test]
fn a_refusal_leaves_nothing_behind() {
    for three in stored().group("again").chunks(3) {
        assert_eq!(three[0], three[2]);
        assert_ne!(three[1].1.number, 0);
    }
}

/// The coefficients pass 32,767 and are not held there.
#[test]
fn a_held_codeword_takes_b_past_32767() {
    for frames in stored().group("held").chunks(5) {
        let last = frames[4].1.state.expect("a state");
        assert!(last.b.iter().all(|&word| word >= 32_768), "{last:?}");
    }
}

/// The group `ends` meets both ends of either scale in every way, and from reset holds each of them at every pair. What is counted
/// are the octets that move and those that are held there.
#[test]
fn the_ends_of_the_scale_are_met_in_every_way() {
    let mut met = BTreeSet::new();
    let mut held_from_reset = BTreeSet::new();
    for (call, answer) in stored().group("ends") {
        let Call::Decode(c) = call else { continue };
        let law = Law::from_number(c.law).expect("a law");
        let header = read_header(&c.frame).expect("a header");
        let from_reset = c.state == State::reset(header.core);
        let (mut state, mut count) = (c.state, 0);
        for codeword in unpack(header, &c.frame) {
            let at_end = meeting(&state, law, header.width, codeword);
            let held = at_end.filter(|(_, how)| *how == Meeting::Held);
            met.extend(at_end.map(|(end, how)| (c.law, end, how)));
            if let (Some((end, _)), true) = (held, from_reset) {
                held_from_reset.insert((header.width, header.core, c.law, end));
            }
            let decoded = sample::decode(&state, law, header.width, codeword);
            let moved = decoded.byte != decoded.compressed;
            count += usize::from(moved || held.is_some());
            state = decoded.state;
        }
        assert_eq!((answer.disagreements, answer.state), (count, Some(state)));
    }
    assert_eq!((met.len(), held_from_reset.len()), (16, 36));
}

/// The first sample is a transition and sets AP to 256; seven more take it no further than 347. Without it AP stays above 500.
#[test]
fn a_transition_at_yl_262144() {
    let stored = stored();
    let calls = stored.group("transitions");
    let (_, answer) = calls.last().expect("a call");
    assert_eq!(answer.state.map(|s| s.ap), Some(347));
}

/// What the calls that were done stand for: both laws and both editions with all nine pairs, every thinning, tones and
/// disagreements.
#[test]
fn the_calls_are_many_sided() {
    let stored = stored();
    let calls = stored.of_codec().into_iter();
    let done: Vec<_> = calls.filter(|(_, answer)| answer.number == 0).collect();
    let (mut encoded, mut decoded, mut thinned) =
        (BTreeSet::new(), BTreeSet::new(), BTreeSet::new());
    for (call, _) in &done {
        match call {
            Call::Encode(c) => drop(encoded.insert((c.law, c.edition, c.width, c.state.core))),
            Call::Decode(c) => drop(decoded.insert((c.law, c.frame[0]))),
            Call::Drop(c) => drop(thinned.insert((c.frame[0], c.width))),
            _ => {}
        };
    }
    assert_eq!((encoded.len(), decoded.len(), thinned.len()), (36, 36, 38));
    assert!(done.iter().any(|(_, answer)| answer.disagreements > 0));
    let tones = done
        .iter()
        .filter(|(_, a)| a.state.is_some_and(|s| s.td == 1));
    assert!(tones.count() > 0);
}
