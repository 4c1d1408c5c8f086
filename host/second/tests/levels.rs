//! G.711 at its ends and around zero, the rows of the Recommendation's Tables 16 and 21, and
//! what must hold of all 256 bytes.

use second::g711::{compress, expand, one_down, one_up, Law};

#[test]
fn greatest_levels() {
    assert_eq!(expand(Law::Mu, 0x80), 8_031);
    assert_eq!(expand(Law::Mu, 0x00), -8_031);
    assert_eq!(expand(Law::A, 0xAA), 8_064);
    assert_eq!(expand(Law::A, 0x2A), -8_064);
}

#[test]
fn levels_beside_zero() {
    let mu = [(0xFF, 0), (0x7F, 0), (0xFE, 2), (0x7E, -2), (0xFD, 4)];
    let a = [(0xD5, 2), (0x55, -2), (0xD4, 6), (0x54, -6)];
    for (byte, level) in mu {
        assert_eq!(expand(Law::Mu, byte), level);
    }
    for (byte, level) in a {
        assert_eq!(expand(Law::A, byte), level);
    }
}

/// Table 16: IS, IMAG, the A-law and the mu-law character. For A-law both levels that have this
/// IMAG are tried: two of them share each, since A-law is doubled.
const TABLE_16: [(u8, i32, u8, u8); 7] = [
    (0, 3, 0b1101_0100, 0b1111_1101),
    (0, 2, 0b1101_0100, 0b1111_1110),
    (0, 1, 0b1101_0101, 0b1111_1110),
    (0, 0, 0b1101_0101, 0b1111_1111),
    (1, 1, 0b0101_0101, 0b0111_1110),
    (1, 2, 0b0101_0101, 0b0111_1110),
    (1, 3, 0b0101_0100, 0b0111_1101),
];

#[test]
fn table_16() {
    for (is, imag, a, mu) in TABLE_16 {
        let (level, doubled) = match is {
            0 => (imag, [2 * imag, 2 * imag + 1]),
            _ => (-imag, [-2 * imag, 1 - 2 * imag]),
        };
        assert_eq!(compress(Law::Mu, level), mu, "mu-law, {is} {imag}");
        for level in doubled {
            assert_eq!(compress(Law::A, level), a, "A-law, {is} {imag}");
        }
    }
}

/// Table 21: SP with its SD where ID > IM, where ID = IM and where ID < IM.
const TABLE_21_A: [[u8; 3]; 3] = [
    [0b0101_0101, 0b1101_0101, 0b1101_0100],
    [0b0101_0100, 0b0101_0101, 0b1101_0101],
    [0b0101_0111, 0b0101_0100, 0b0101_0101],
];
const TABLE_21_MU: [[u8; 3]; 3] = [
    [0b1111_1111, 0b1111_1110, 0b1111_1101],
    [0b0111_1110, 0b1111_1111, 0b1111_1110],
    [0b0111_1101, 0b0111_1110, 0b0111_1111],
];

#[test]
fn table_21() {
    for (law, rows) in [(Law::A, TABLE_21_A), (Law::Mu, TABLE_21_MU)] {
        for [down, sp, up] in rows {
            assert_eq!(one_down(law, sp), down, "{law:?} below {sp:02X}");
            assert_eq!(one_up(law, sp), up, "{law:?} above {sp:02X}");
        }
    }
}

#[test]
fn ends_stay_and_the_two_zeros_are_one_level() {
    assert_eq!(one_up(Law::Mu, 0x80), 0x80);
    assert_eq!(one_down(Law::Mu, 0x00), 0x00);
    assert_eq!(one_up(Law::A, 0xAA), 0xAA);
    assert_eq!(one_down(Law::A, 0x2A), 0x2A);
    assert_eq!(one_down(Law::Mu, 0xFF), 0x7E);
    assert_eq!(one_up(Law::Mu, 0x7F), 0xFE);
    assert_eq!(one_up(Law::Mu, 0xFF), 0xFE);
    assert_eq!(one_down(Law::Mu, 0x7F), 0x7E);
    assert_eq!(one_down(Law::A, 0xD5), 0x55);
    assert_eq!(one_up(Law::A, 0x55), 0xD5);
}

fn sorted_levels(law: Law) -> Vec<i32> {
    let mut levels: Vec<i32> = (0..=255).map(|byte| expand(law, byte)).collect();
    levels.sort_unstable();
    levels.dedup();
    levels
}

#[test]
fn a_neighbour_is_the_next_level_with_none_between() {
    for law in Law::BOTH {
        let levels = sorted_levels(law);
        assert_eq!(levels.len(), if law == Law::Mu { 255 } else { 256 });
        for byte in 0..=255 {
            let place = levels.binary_search(&expand(law, byte)).unwrap();
            let above = levels[(place + 1).min(levels.len() - 1)];
            let below = levels[place.saturating_sub(1)];
            assert_eq!(expand(law, one_up(law, byte)), above);
            assert_eq!(expand(law, one_down(law, byte)), below);
        }
    }
}

#[test]
fn compressing_a_level_gives_its_byte_back() {
    for law in Law::BOTH {
        for byte in 0..=255 {
            let same_level = match (law, byte) {
                (Law::Mu, 0x7F) => 0xFF,
                _ => byte,
            };
            assert_eq!(compress(law, expand(law, byte)), same_level);
        }
    }
}

#[test]
fn compressing_keeps_order_and_holds_what_is_too_great() {
    for law in Law::BOTH {
        let top = expand(law, compress(law, 32_767));
        assert_eq!(top, *sorted_levels(law).last().unwrap());
        assert_eq!(expand(law, compress(law, -32_767)), -top);
        for level in -32_767..32_767 {
            let here = expand(law, compress(law, level));
            let next = expand(law, compress(law, level + 1));
            assert!(here <= next, "{law:?} at {level}");
        }
    }
}

#[test]
fn the_word_32768_has_no_magnitude_but_keeps_its_sign() {
    assert_eq!(compress(Law::Mu, -32_768), 0x7F);
    assert_eq!(compress(Law::A, -32_768), 0x55);
}
