//! The twelve first bytes: from reset at any core, encoder width 5, the first codeword.

use second::calls;
use second::g711::Law;
use second::sample;
use second::state::State;

const TWELVE: [(Law, u8, u8); 12] = [
    (Law::Mu, 0xFF, 0b00000),
    (Law::Mu, 0x7F, 0b00000),
    (Law::Mu, 0xFE, 0b00001),
    (Law::Mu, 0x7E, 0b11110),
    (Law::Mu, 0xFD, 0b00011),
    (Law::Mu, 0xFC, 0b00101),
    (Law::Mu, 0x80, 0b01111),
    (Law::Mu, 0x00, 0b10000),
    (Law::A, 0xD5, 0b00001),
    (Law::A, 0x55, 0b11110),
    (Law::A, 0xD4, 0b00101),
    (Law::A, 0x2A, 0b10000),
];

#[test]
fn twelve_first_bytes_at_every_core() {
    for core in 2..=4 {
        for (law, byte, codeword) in TWELVE {
            let found = sample::encode(&State::reset(core), law, 5, byte);
            assert_eq!(found.codeword, codeword, "{law:?} {byte:02X} at {core}");
        }
    }
}

#[test]
fn the_same_through_the_call_and_the_planes() {
    for core in 2..=4 {
        for (law, byte, codeword) in TWELVE {
            let mut out = [0; 7];
            let pcm = [byte, 0xFF, 0xFF, 0xFF, 0xFF, 0xFF, 0xFF, 0xFF];
            let start = calls::reset(core).state;
            let answer = calls::encode(start, law.number(), 1, 5, &pcm, &mut out);
            assert_eq!((answer.number, answer.octets), (0, 7));
            let first = out[2..]
                .iter()
                .fold(0, |bits, octet| bits << 1 | octet >> 7);
            assert_eq!(first, codeword);
        }
    }
}
