//! Document 02, W12: z × 2^e / 1024 as IEEE 754 binary64, from the exact fraction and by whole numbers alone.

use crate::record::Axis;

/// The bits of a binary64 below its exponent, and what its exponent is raised by.
const FRACTION_BITS: u32 = 52;
const BIAS: i128 = 1023;
/// 1024 units make one: 2^10.
const UNIT_BITS: i128 = 10;

/// The eight bytes of z × 2^e / 1024, the least significant first. "with nothing lost": a number that binary64 does not have is none here. "A zero
/// is given as plus zero."
pub fn bytes(z: i128, e: u32) -> [u8; 8] {
    let bits = match z {
        0 => 0,
        _ => bits(z < 0, z.abs() << e),
    };
    std::array::from_fn(|place| (bits >> (8 * place)) as u8)
}

/// Sign, exponent and fraction of ± size / 1024, for a size above 0.
fn bits(negative: bool, size: i128) -> i128 {
    let place = i128::ilog2(size);
    // The first bit of a number is 1, and is not stored; 52 bits come after it.
    let fraction = if place <= FRACTION_BITS {
        size << (FRACTION_BITS - place)
    } else {
        let lost = place - FRACTION_BITS;
        assert_eq!(size >> lost << lost, size, "nothing is lost");
        size >> lost
    } - (1 << FRACTION_BITS);
    let exponent = BIAS + i128::from(place) - UNIT_BITS;
    i128::from(negative) << 63 | exponent << FRACTION_BITS | fraction
}

/// "each as sixteen bytes, spread then error": a_ii × 2^e / 1024 and r_i × 2^e / 1024.
pub fn axis(axis: &Axis, e: u32) -> Vec<u8> {
    [bytes(axis.a_ii, e), bytes(axis.r_i, e)].concat()
}

#[cfg(test)]
mod tests {
    use super::*;
    use crate::random::Random;

    /// By Rust's own binary64: conversion, a power of two and a division, none of which rounds here.
    fn by_f64(z: i128, e: u32) -> [u8; 8] {
        // −0.0 + 0.0 is plus zero; no other number changes.
        (z as f64 * 2f64.powi(e as i32) / 1024.0 + 0.0).to_le_bytes()
    }

    const MOST: i128 = (1 << 53) - 1;

    #[test]
    fn rust_s_own_numbers_agree() {
        let mut random = Random::new(64);
        for e in 0..=40 {
            for z in 0..=4096 {
                for z in [z, -z, MOST - z, z - MOST] {
                    assert_eq!(bytes(z, e), by_f64(z, e), "{z} {e}");
                }
            }
            for place in 0..53 {
                for z in (1i128 << place) - 3..=(1 << place) + 3 {
                    for z in [z.clamp(-MOST, MOST), (-z).clamp(-MOST, MOST)] {
                        assert_eq!(bytes(z, e), by_f64(z, e), "{z} {e}");
                    }
                }
            }
            for _ in 0..5000 {
                let z = random.spread(MOST);
                assert_eq!(bytes(z, e), by_f64(z, e), "{z} {e}");
            }
        }
    }

    /// Read back, the number times 1024 is z × 2^e: both are whole, and a power of two is exact.
    #[test]
    fn nothing_is_lost() {
        let mut random = Random::new(1024);
        for _ in 0..20_000 {
            let (z, e) = (random.spread(MOST), random.between(0, 40) as u32);
            let read = f64::from_le_bytes(bytes(z, e)) * 1024.0;
            assert_eq!(read as i128, z << e);
        }
    }

    #[test]
    fn bytes_by_hand() {
        // 75776 / 1024 is 74 = 1.15625 × 2^6: exponent 1029, fraction 0.15625.
        assert_eq!(bytes(75_776, 0), [0, 0, 0, 0, 0, 128, 82, 64]);
        assert_eq!(bytes(1024, 0), [0, 0, 0, 0, 0, 0, 240, 63]);
        assert_eq!(bytes(-1024, 0), [0, 0, 0, 0, 0, 0, 240, 191]);
        // −1/1024 is −2^−10, and 2^40 of them −2^30.
        assert_eq!(bytes(-1, 0), [0, 0, 0, 0, 0, 0, 80, 191]);
        assert_eq!(bytes(-1, 40), [0, 0, 0, 0, 0, 0, 208, 193]);
        for e in [0, 1, 40] {
            assert_eq!(bytes(0, e), [0; 8]);
        }
    }
}
