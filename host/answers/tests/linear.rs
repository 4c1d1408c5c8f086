//! The stored lines of the linear calls, judged by each other and by those of a law.

mod support;

use answers::call::{Call, Decode, DecodeLinear, Encode, EncodeLinear};
use answers::parts::Parts;
use second::g711::{compress, one_down, one_up, Law};
use second::state::State;
use std::collections::{BTreeMap, BTreeSet};
use support::{stored, Stored};

const ENDS: [i16; 2] = [-8_192, 8_191];

/// EXPAND as the stored lines `level` have it: a word of 14 bits in two's complement, by law and octet.
fn levels(stored: &Stored) -> BTreeMap<(u8, u8), i16> {
    let level = |line: &String| {
        let fields: Vec<&str> = line.split(' ').collect();
        let &["level", law, octet, "=", word, ..] = fields.as_slice() else {
            return None;
        };
        let word: i16 = word.parse().ok()?;
        let signed = if word < 8_192 { word } else { word - 16_384 };
        Some(((law.parse().ok()?, octet.parse().ok()?), signed))
    };
    stored.lines.iter().filter_map(level).collect()
}

/// The four lines that begin with one of a law's encoder.
struct Four<'a> {
    encode: (&'a Encode, &'a Parts),
    encode_linear: (&'a EncodeLinear, &'a Parts),
    decode: (&'a Decode, &'a Parts),
    decode_linear: (&'a DecodeLinear, &'a Parts),
}

fn four<'a>(lines: &'a [(&'a Call, Parts)]) -> Four<'a> {
    match lines {
        [(Call::Encode(a), of_a), (Call::EncodeLinear(b), of_b), (Call::Decode(c), of_c), (Call::DecodeLinear(d), of_d)] => {
            Four {
                encode: (a, of_a),
                encode_linear: (b, of_b),
                decode: (c, of_c),
                decode_linear: (d, of_d),
            }
        }
        _ => panic!("four lines stand together"),
    }
}

/// Expansion followed by the linear call is the call of the law, in codewords and state.
#[test]
fn levels_are_encoded_as_their_octets_are() {
    let stored = stored();
    let levels = levels(&stored);
    let mut seen = BTreeSet::new();
    for lines in stored.group("expanded").chunks(4) {
        let four = four(lines);
        let ((of_law, sent), (linear, other)) = (four.encode, four.encode_linear);
        let expanded = of_law.samples.iter().map(|&o| levels[&(of_law.law, o)]);
        assert_eq!(linear.samples, expanded.collect::<Vec<_>>());
        assert_eq!(
            (linear.state, linear.edition, linear.width),
            (of_law.state, of_law.edition, of_law.width)
        );
        assert_eq!((other, sent.number), (sent, 0));
        let pair = (of_law.width, of_law.state.core);
        let octets = of_law.samples.iter().map(|&o| (of_law.law, pair, o));
        seen.extend(octets.filter(|_| of_law.state == State::reset(pair.1)));
    }
    assert_eq!(seen.len(), 2 * 9 * 256);
}

/// Both decoders come to the state of the encoder. The octet is the compressed sample, or one level off.
#[test]
fn a_frame_is_decoded_alike_either_way() {
    let stored = stored();
    for lines in stored.group("expanded").chunks(4) {
        let four = four(lines);
        let ((of_law, heard), (linear, other)) = (four.decode, four.decode_linear);
        assert_eq!((&linear.frame, linear.state), (&of_law.frame, of_law.state));
        assert_eq!([heard.number, other.number], [0; 2]);
        assert_eq!([heard.state, other.state], [four.encode.1.state; 2]);
        assert_eq!((other.disagreements, other.written), (0, heard.written));
        let law = Law::from_number(of_law.law).expect("a law");
        let mut moved = 0;
        for (sample, &octet) in other.samples().into_iter().zip(&heard.out) {
            let sp = compress(law, sample.into());
            assert!([sp, one_up(law, sp), one_down(law, sp)].contains(&octet));
            moved += usize::from(octet != sp);
        }
        assert!(moved <= heard.disagreements);
    }
}

/// Where a line is encoded and the next one decoded, both from reset, they end in one state.
#[test]
fn both_ends_are_reached_from_reset_at_every_pair() {
    let stored = stored();
    let mut reached = BTreeSet::new();
    let mut last_sent = None;
    for (call, answer) in stored.group("linear-ends") {
        match call {
            Call::EncodeLinear(_) => last_sent = answer.state,
            Call::DecodeLinear(c) => {
                let pair = (c.frame[0] / 8 % 8, c.state.core);
                let from_reset = c.state == State::reset(pair.1);
                let at_ends = answer.samples().into_iter().filter(|s| ENDS.contains(s));
                reached.extend(at_ends.filter(|_| from_reset).map(|end| (pair, end)));
                if let Some(sent) = last_sent.take().filter(|_| from_reset) {
                    assert_eq!(answer.state, Some(sent));
                }
            }
            other => panic!("{} stands among linear samples", other.word()),
        }
    }
    assert_eq!(reached.len(), 2 * 9);
}

/// At either side, and at both.
#[test]
fn linear_samples_stand_at_every_side_of_a_stream() {
    let stored = stored();
    let sides: BTreeSet<(bool, bool)> = stored
        .group("linear-streams")
        .chunks(3)
        .map(|three| {
            (
                matches!(three[0].0, Call::EncodeLinear(_)),
                matches!(three[2].0, Call::DecodeLinear(_)),
            )
        })
        .collect();
    assert_eq!(sides.len(), 4);
}

/// What the linear calls that were done stand for: both editions with all nine pairs, every length from 8 to 320 at its ends, and
/// every sample at an end or at zero.
#[test]
fn the_linear_calls_are_many_sided() {
    let stored = stored();
    let (mut encoded, mut decoded, mut counts) =
        (BTreeSet::new(), BTreeSet::new(), BTreeSet::new());
    let (mut given, mut written) = (BTreeSet::new(), BTreeSet::new());
    for (call, answer) in stored.of_codec() {
        match call {
            Call::EncodeLinear(c) if answer.number == 0 => {
                encoded.insert((c.edition, c.width, c.state.core));
                counts.insert(c.samples.len());
                given.extend(&c.samples);
            }
            Call::DecodeLinear(c) if answer.number == 0 => {
                decoded.insert(c.frame[0]);
                written.extend(answer.samples());
            }
            _ => {}
        }
    }
    assert_eq!((encoded.len(), decoded.len()), (18, 18));
    assert!(counts.contains(&8) && counts.contains(&320));
    for all in [given, written] {
        assert!(ENDS.iter().chain(&[-1, 0, 1]).all(|s| all.contains(s)));
        assert_eq!((all.first(), all.last()), (ENDS.first(), ENDS.last()));
    }
}
