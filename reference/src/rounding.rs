//! Document 01, "Rounding to nearest".

/// rnd(u/w) for w > 0: the nearest whole number, halves away from zero.
pub fn rnd(u: i128, w: i128) -> i128 {
    assert!(w > 0);
    u.signum() * ((2 * u.abs() + w) / (2 * w))
}
