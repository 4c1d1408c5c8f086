//! The checksum of a list of numbers, and of a state as such a list.

use second::state::State;

const MULTIPLIER: u64 = 65_599;
/// The greatest prime below 2^32.
const MODULUS: u64 = 4_294_967_291;

pub fn of_numbers(values: impl IntoIterator<Item = u64>) -> u64 {
    values
        .into_iter()
        .fold(0, |sum, value| (sum * MULTIPLIER + value + 1) % MODULUS)
}

pub fn of_octets(values: impl IntoIterator<Item = u8>) -> u64 {
    of_numbers(values.into_iter().map(u64::from))
}

pub fn of_state(state: &State) -> u64 {
    of_numbers(state.numbers().into_iter().map(u64::from))
}
