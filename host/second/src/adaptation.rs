//! Scale factor and speed of adaptation: MIX, FILTD, LIMB and FILTE (section 6.2.5), LIMA, FILTA,
//! FILTB, FILTC, SUBTC and TRIGA (6.2.6). All four filters have one form and differ in scale.

use crate::state::State;
use crate::tables;

const LEAST_SCALE: i32 = 544;
const GREATEST_SCALE: i32 = 5_120;

/// LIMA and MIX: the scale factor Y, between the slow one and the fast one.
pub fn mix(state: &State) -> i32 {
    let al = i32::from(state.ap.min(256) >> 2);
    let slow = (state.yl >> 6) as i32;
    let fast = i32::from(state.yu);
    slow + (fast - slow) * al / 64
}

/// A first order low pass: the value moves by 1 / 2^shift of its way to the target,
/// rounded towards minus infinity.
fn filtered(value: i32, target: i32, shift: u32) -> i32 {
    value + ((target - value) >> shift)
}

/// FILTD and LIMB: YU of the next sample. W has five bits less after the point than Y.
pub fn next_fast_scale(core: u8, index: usize, y: i32) -> i32 {
    let wi = tables::scale_multipliers(core)[index];
    filtered(y, wi * 32, 5).clamp(LEAST_SCALE, GREATEST_SCALE)
}

/// FILTE: YL of the next sample. YL has six bits more after the point than YU.
pub fn next_slow_scale(yl: u32, next_yu: i32) -> i32 {
    filtered(yl as i32, next_yu * 64, 6)
}

/// DMS and DML of the next sample: FILTA and FILTB.
pub fn next_averages(state: &State, index: usize) -> (i32, i32) {
    let fi = tables::speed_values(state.core)[index];
    (
        filtered(i32::from(state.dms), fi << 9, 5),
        filtered(i32::from(state.dml), fi << 11, 7),
    )
}

/// SUBTC, FILTC and TRIGA: AP of the next sample.
pub fn next_speed(ap: u16, y: i32, averages: (i32, i32), tone: bool, transition: bool) -> i32 {
    if transition {
        return 256;
    }
    let (dmsp, dmlp) = averages;
    let steady = y >= 1_536 && (4 * dmsp - dmlp).abs() < dmlp >> 3 && !tone;
    let target = if steady { 0 } else { 512 };
    filtered(i32::from(ap), target, 4)
}
