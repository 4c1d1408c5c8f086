//! Tables 8 to 11 and 17 to 20 of the Recommendation, every row as printed: DS (or DSX), lowest
//! and highest DLN (or DLNX), I (or ID). The row 123 - 165 with ID 20 of Table 20 is lost in one
//! of the scan's two copies and stands in the other.

#[derive(Clone, Copy)]
pub struct Row(pub u8, pub i32, pub i32, pub u8);

pub const TABLE_8: [Row; 6] = [
    Row(0, 261, 2047, 0b01),
    Row(0, 0, 260, 0b00),
    Row(0, 2048, 4095, 0b00),
    Row(1, 2048, 4095, 0b11),
    Row(1, 0, 260, 0b11),
    Row(1, 261, 2047, 0b10),
];

pub const TABLE_9: [Row; 10] = [
    Row(0, 356, 2047, 0b011),
    Row(0, 261, 355, 0b010),
    Row(0, 123, 260, 0b001),
    Row(0, 0, 122, 0b000),
    Row(0, 2048, 4095, 0b000),
    Row(1, 2048, 4095, 0b111),
    Row(1, 0, 122, 0b111),
    Row(1, 123, 260, 0b110),
    Row(1, 261, 355, 0b101),
    Row(1, 356, 2047, 0b100),
];

pub const TABLE_10: [Row; 18] = [
    Row(0, 405, 2047, 0b0111),
    Row(0, 356, 404, 0b0110),
    Row(0, 310, 355, 0b0101),
    Row(0, 261, 309, 0b0100),
    Row(0, 202, 260, 0b0011),
    Row(0, 123, 201, 0b0010),
    Row(0, 0, 122, 0b0001),
    Row(0, 4089, 4095, 0b0001),
    Row(0, 2048, 4088, 0b0000),
    Row(1, 2048, 4088, 0b1111),
    Row(1, 4089, 4095, 0b1110),
    Row(1, 0, 122, 0b1110),
    Row(1, 123, 201, 0b1101),
    Row(1, 202, 260, 0b1100),
    Row(1, 261, 309, 0b1011),
    Row(1, 310, 355, 0b1010),
    Row(1, 356, 404, 0b1001),
    Row(1, 405, 2047, 0b1000),
];

pub const TABLE_11: [Row; 34] = [
    Row(0, 439, 2047, 0b01111),
    Row(0, 405, 438, 0b01110),
    Row(0, 380, 404, 0b01101),
    Row(0, 356, 379, 0b01100),
    Row(0, 333, 355, 0b01011),
    Row(0, 310, 332, 0b01010),
    Row(0, 286, 309, 0b01001),
    Row(0, 261, 285, 0b01000),
    Row(0, 233, 260, 0b00111),
    Row(0, 202, 232, 0b00110),
    Row(0, 166, 201, 0b00101),
    Row(0, 123, 165, 0b00100),
    Row(0, 69, 122, 0b00011),
    Row(0, 0, 68, 0b00010),
    Row(0, 4089, 4095, 0b00010),
    Row(0, 3961, 4088, 0b00001),
    Row(0, 2048, 3960, 0b00000),
    Row(1, 2048, 3960, 0b11111),
    Row(1, 3961, 4088, 0b11110),
    Row(1, 4089, 4095, 0b11101),
    Row(1, 0, 68, 0b11101),
    Row(1, 69, 122, 0b11100),
    Row(1, 123, 165, 0b11011),
    Row(1, 166, 201, 0b11010),
    Row(1, 202, 232, 0b11001),
    Row(1, 233, 260, 0b11000),
    Row(1, 261, 285, 0b10111),
    Row(1, 286, 309, 0b10110),
    Row(1, 310, 332, 0b10101),
    Row(1, 333, 355, 0b10100),
    Row(1, 356, 379, 0b10011),
    Row(1, 380, 404, 0b10010),
    Row(1, 405, 438, 0b10001),
    Row(1, 439, 2047, 0b10000),
];

pub const TABLE_17: [Row; 6] = [
    Row(0, 261, 2047, 3),
    Row(0, 0, 260, 2),
    Row(0, 2048, 4095, 2),
    Row(1, 2048, 4095, 1),
    Row(1, 0, 260, 1),
    Row(1, 261, 2047, 0),
];

pub const TABLE_18: [Row; 10] = [
    Row(0, 356, 2047, 7),
    Row(0, 261, 355, 6),
    Row(0, 123, 260, 5),
    Row(0, 0, 122, 4),
    Row(0, 2048, 4095, 4),
    Row(1, 2048, 4095, 3),
    Row(1, 0, 122, 3),
    Row(1, 123, 260, 2),
    Row(1, 261, 355, 1),
    Row(1, 356, 2047, 0),
];

pub const TABLE_19: [Row; 18] = [
    Row(0, 405, 2047, 15),
    Row(0, 356, 404, 14),
    Row(0, 310, 355, 13),
    Row(0, 261, 309, 12),
    Row(0, 202, 260, 11),
    Row(0, 123, 201, 10),
    Row(0, 0, 122, 9),
    Row(0, 4089, 4095, 9),
    Row(0, 2048, 4088, 8),
    Row(1, 2048, 4088, 7),
    Row(1, 4089, 4095, 6),
    Row(1, 0, 122, 6),
    Row(1, 123, 201, 5),
    Row(1, 202, 260, 4),
    Row(1, 261, 309, 3),
    Row(1, 310, 355, 2),
    Row(1, 356, 404, 1),
    Row(1, 405, 2047, 0),
];

pub const TABLE_20: [Row; 34] = [
    Row(0, 439, 2047, 31),
    Row(0, 405, 438, 30),
    Row(0, 380, 404, 29),
    Row(0, 356, 379, 28),
    Row(0, 333, 355, 27),
    Row(0, 310, 332, 26),
    Row(0, 286, 309, 25),
    Row(0, 261, 285, 24),
    Row(0, 233, 260, 23),
    Row(0, 202, 232, 22),
    Row(0, 166, 201, 21),
    Row(0, 123, 165, 20),
    Row(0, 69, 122, 19),
    Row(0, 0, 68, 18),
    Row(0, 4089, 4095, 18),
    Row(0, 3961, 4088, 17),
    Row(0, 2048, 3960, 16),
    Row(1, 2048, 3960, 15),
    Row(1, 3961, 4088, 14),
    Row(1, 4089, 4095, 13),
    Row(1, 0, 68, 13),
    Row(1, 69, 122, 12),
    Row(1, 123, 165, 11),
    Row(1, 166, 201, 10),
    Row(1, 202, 232, 9),
    Row(1, 233, 260, 8),
    Row(1, 261, 285, 7),
    Row(1, 286, 309, 6),
    Row(1, 310, 332, 5),
    Row(1, 333, 355, 4),
    Row(1, 356, 379, 3),
    Row(1, 380, 404, 2),
    Row(1, 405, 438, 1),
    Row(1, 439, 2047, 0),
];

/// QUAN by the printed rows, of which exactly one must apply.
pub fn quan(width: u8, ds: u8, dln: i32) -> u8 {
    let table: &[Row] = match width {
        2 => &TABLE_8,
        3 => &TABLE_9,
        4 => &TABLE_10,
        _ => &TABLE_11,
    };
    only(table, ds, dln)
}

/// ID of SYNC by the printed rows.
pub fn id(width: u8, dsx: u8, dlnx: i32) -> u8 {
    let table: &[Row] = match width {
        2 => &TABLE_17,
        3 => &TABLE_18,
        4 => &TABLE_19,
        _ => &TABLE_20,
    };
    only(table, dsx, dlnx)
}

fn only(table: &[Row], ds: u8, dln: i32) -> u8 {
    let mut hits = table
        .iter()
        .filter(|row| row.0 == ds && (row.1..=row.2).contains(&dln));
    let hit = hits.next().expect("a row applies");
    assert!(hits.next().is_none(), "two rows apply to {dln}");
    hit.3
}
