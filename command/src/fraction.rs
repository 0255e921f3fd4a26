//! Exact fractions, which are rounded where they are printed and nowhere before.

#[derive(Clone, Copy)]
pub struct Fraction {
    pub numerator: i128,
    /// Above 0.
    pub denominator: i128,
}

impl Fraction {
    /// The nearest whole number of units of 1/10^decimals, halves away from zero.
    pub fn nearest(self, decimals: u32) -> i128 {
        let scaled = self.numerator * 10_i128.pow(decimals);
        let size = (scaled.abs() + self.denominator / 2) / self.denominator;
        if scaled < 0 {
            -size
        } else {
            size
        }
    }

    /// The least whole number of these units that is not below the fraction and what rounding took from another: so what is printed of both holds
    /// if it held before.
    pub fn above(self, decimals: u32, other: Fraction) -> i128 {
        debug_assert_eq!(self.denominator, other.denominator);
        let scale = 10_i128.pow(decimals);
        let lost = (other.numerator * scale - other.nearest(decimals) * other.denominator).abs();
        let scaled = self.numerator * scale + lost;
        -((-scaled).div_euclid(self.denominator))
    }

    pub fn to_f64(self) -> f64 {
        self.numerator as f64 / self.denominator as f64
    }
}

/// Units of 1/10^decimals as a decimal number.
pub fn decimal(units: i128, decimals: u32) -> String {
    let sign = if units < 0 { "-" } else { "" };
    let scale = 10_u128.pow(decimals);
    let (whole, rest) = (units.unsigned_abs() / scale, units.unsigned_abs() % scale);
    if decimals == 0 {
        return format!("{sign}{whole}");
    }
    format!("{sign}{whole}.{rest:0width$}", width = decimals as usize)
}

#[cfg(test)]
mod tests {
    use super::*;

    fn of(numerator: i128, denominator: i128) -> Fraction {
        Fraction {
            numerator,
            denominator,
        }
    }

    #[test]
    fn nearest_and_above() {
        assert_eq!(of(5, 2).nearest(0), 3);
        assert_eq!(of(-5, 2).nearest(0), -3);
        assert_eq!(of(-12, 10).nearest(0), -1);
        assert_eq!(of(1, 3).nearest(3), 333);
        // 1/3 and an error of 1/4: 0.3 is 1/30 off, so 1/4 + 1/30 = 0.28.. is rounded up.
        assert_eq!(of(3, 12).above(1, of(4, 12)), 3);
        assert_eq!(of(3, 12).above(2, of(4, 12)), 26);
        assert_eq!(of(0, 7).above(2, of(14, 7)), 0);
    }

    #[test]
    fn decimals() {
        assert_eq!(decimal(12345, 2), "123.45");
        assert_eq!(decimal(-5, 2), "-0.05");
        assert_eq!(decimal(7, 0), "7");
    }
}
