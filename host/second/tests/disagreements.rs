//! What a disagreement of the compressed byte with the received codeword means for the byte: a
//! byte that moves disagrees, and one that disagrees and stays is held at an end of its law's
//! scale. Each of the four ends is seen to hold one.

use random::states::{any_state, PAIRS};
use random::Random;
use second::engine::estimate;
use second::g711::Law;
use second::quantizer::reconstruct;
use second::sample::{decode, encode};
use second::state::State;
use std::collections::BTreeSet;

/// The most positive byte and the most negative one.
fn ends(law: Law) -> [u8; 2] {
    match law {
        Law::Mu => [0x80, 0x00],
        Law::A => [0xAA, 0x2A],
    }
}

fn outermost(width: u8) -> [u8; 2] {
    let half = 1 << (width - 1);
    [half - 1, half]
}

/// The byte, where it disagrees and stays.
fn held(state: &State, law: Law, width: u8, codeword: u8) -> Option<u8> {
    let found = decode(state, law, width, codeword);
    let stays = found.byte == found.compressed;
    assert!(stays || found.disagrees, "{codeword} at {width}, {state:?}");
    (stays && found.disagrees).then_some(found.byte)
}

/// The bytes that are held in a stream from reset; the state before a sample gives its codeword.
fn held_ever(
    law: Law,
    (width, core): (u8, u8),
    codeword: &mut dyn FnMut(&State) -> u8,
) -> BTreeSet<u8> {
    let mut state = State::reset(core);
    let mut seen = BTreeSet::new();
    for _ in 0..6_000 {
        let codeword = codeword(&state);
        seen.extend(held(&state, law, width, codeword));
        state = decode(&state, law, width, codeword).state;
    }
    seen
}

#[test]
fn from_any_state_only_the_ends_are_held() {
    let mut random = Random::new(32);
    for law in Law::BOTH {
        let mut seen = BTreeSet::new();
        for (width, core) in PAIRS {
            for _ in 0..5_000 {
                let state = any_state(&mut random, core);
                let codeword = random.below(1 << width) as u8;
                seen.extend(held(&state, law, width, codeword));
            }
        }
        assert_eq!(seen, BTreeSet::from(ends(law)));
    }
}

/// By hand, from Tables 15 and 20: at Y = 5,120 and an estimate of 0 the outermost codeword of
/// width 5 stands for 12,800, beyond either scale. 8,031 has DLNX 378 and so ID 28, 8,064 has 380
/// and so 29, where IM is 31; on the negative side 3 and 2, where IM is 0.
#[test]
fn an_outermost_codeword_at_the_greatest_scale_factor() {
    for core in 2..=4 {
        let state = State {
            yl: 327_680,
            ..State::reset(core)
        };
        let now = estimate(&state);
        assert_eq!((now.y, now.se), (5_120, 0));
        for law in Law::BOTH {
            for (codeword, end) in outermost(5).into_iter().zip(ends(law)) {
                assert_eq!(reconstruct(5, codeword, now.y).abs(), 12_800);
                let found = decode(&state, law, 5, codeword);
                assert_eq!([found.compressed, found.byte], [end, end]);
                assert!(found.disagrees);
            }
        }
    }
}

#[test]
fn outermost_codewords_from_reset_hold_both_ends_at_every_pair() {
    let mut random = Random::new(33);
    for pair in PAIRS {
        for law in Law::BOTH {
            let mut drawn = |_: &State| outermost(pair.0)[random.below(2) as usize];
            let seen = held_ever(law, pair, &mut drawn);
            assert_eq!(seen, BTreeSet::from(ends(law)), "at {pair:?}");
        }
    }
}

/// A square wave between the ends, slower every 320 samples, as an encoder of the law sends it.
fn square(law: Law, width: u8) -> impl FnMut(&State) -> u8 {
    let mut places = 0..;
    move |state| {
        let place: usize = places.next().expect("without end");
        let half_wave = 1 + place / 320;
        encode(state, law, width, ends(law)[place / half_wave % 2]).codeword
    }
}

/// A-law ends at 8,064 and mu-law at 8,031. So what an A-law sender says at full scale can lie
/// beyond a mu-law hearer's scale. Of a sender of the hearer's own law it never does.
#[test]
fn a_hearer_is_held_where_the_sender_s_scale_reaches_further() {
    for pair in PAIRS {
        for from in Law::BOTH {
            for to in Law::BOTH {
                let seen = held_ever(to, pair, &mut square(from, pair.0));
                let further = (from, to) == (Law::A, Law::Mu);
                let due = ends(to).into_iter().filter(|_| further).collect();
                assert_eq!(seen, due, "{from:?} to {to:?} at {pair:?}");
            }
        }
    }
}
