//! Hexadecimal digits: both cases are read, capitals are written.

const CAPITALS: &[u8; 16] = b"0123456789ABCDEF";

pub fn digit(character: u8) -> Option<u8> {
    let value = char::from(character).to_digit(16)?;
    Some(value as u8)
}

pub fn high_digit(value: u8) -> u8 {
    CAPITALS[usize::from(value / 16)]
}

pub fn low_digit(value: u8) -> u8 {
    CAPITALS[usize::from(value % 16)]
}
