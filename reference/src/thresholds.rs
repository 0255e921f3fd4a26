//! Document 01, "Choosing a turn": the thresholds T_l.

/// The unit of the thresholds: a tangent of 1 is 2^24.
pub const TANGENT_ONE: i128 = 1 << 24;

/// l runs from 1 to this.
pub const COUNT: u32 = 14;

/// T_l = 2^24 × 2uw / (u² − w²) rounded up, with u = 2^(2l+1) − 1 and w = 3×2^l.
pub fn threshold(l: u32) -> i128 {
    assert!((1..=COUNT).contains(&l));
    let u = (1i128 << (2 * l + 1)) - 1;
    let w = 3 * (1i128 << l);
    let above = TANGENT_ONE * 2 * u * w;
    let below = u * u - w * w;
    (above + below - 1) / below
}
