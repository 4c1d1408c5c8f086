//! The magnitudes of the I-inputs: the description's Tables 9 to 12, one for each width of
//! codeword.

/// Sixteen of the first magnitude, sixteen of the second, and so on in turn.
pub struct Run {
    pub first: u8,
    pub second: u8,
    pub length: u32,
}

impl Run {
    pub fn magnitudes(&self) -> impl Iterator<Item = u8> + '_ {
        (0..self.length).map(|place| match place / 16 % 2 {
            0 => self.first,
            _ => self.second,
        })
    }
}

pub const fn held(magnitude: u8, length: u32) -> Run {
    in_turn(magnitude, magnitude, length)
}

pub const fn in_turn(first: u8, second: u8, length: u32) -> Run {
    Run {
        first,
        second,
        length,
    }
}

/// Table 9, for a width of four bits.
const TABLE_9: [Run; 27] = [
    held(0, 1_024),
    in_turn(0, 1, 512),
    held(1, 512),
    in_turn(1, 2, 512),
    held(2, 512),
    in_turn(2, 3, 256),
    held(3, 1_024),
    in_turn(3, 4, 512),
    held(4, 512),
    in_turn(4, 5, 512),
    held(5, 512),
    in_turn(5, 6, 256),
    held(6, 1_024),
    in_turn(6, 7, 256),
    held(7, 1_024),
    held(6, 1_024),
    held(5, 1_024),
    in_turn(5, 4, 512),
    in_turn(4, 3, 512),
    held(3, 512),
    held(2, 1_024),
    in_turn(2, 1, 512),
    in_turn(1, 0, 512),
    held(0, 1_024),
    in_turn(5, 7, 256),
    in_turn(2, 7, 256),
    in_turn(1, 6, 256),
];

/// Tables 10, 11 and 12 are Table 9 shifted by one bit up, one down and two down.
pub fn magnitudes(width: u8) -> Vec<u8> {
    TABLE_9
        .iter()
        .flat_map(Run::magnitudes)
        .map(|magnitude| (magnitude << 1) >> (5 - width))
        .collect()
}
