//! Whole numbers of any size, for tests in exact fractions: sums, products, and which of two is the larger.

use std::cmp::Ordering;

/// A sign and a size in digits of 32 bits, the least significant first, with no zero at the end.
#[derive(Clone, Debug, PartialEq, Eq)]
pub struct Whole {
    negative: bool,
    digits: Vec<u32>,
}

impl From<i128> for Whole {
    fn from(number: i128) -> Whole {
        let size = number.unsigned_abs();
        let digits = (0..4).map(|place| (size >> (32 * place)) as u32).collect();
        Whole::of(number < 0, digits)
    }
}

impl Whole {
    fn of(negative: bool, mut digits: Vec<u32>) -> Whole {
        while digits.last() == Some(&0) {
            digits.pop();
        }
        Whole { negative, digits }
    }

    pub fn plus(&self, other: &Whole) -> Whole {
        if self.negative == other.negative {
            return Whole::of(self.negative, sum(&self.digits, &other.digits));
        }
        match by_size(&self.digits, &other.digits) {
            Ordering::Less => Whole::of(other.negative, difference(&other.digits, &self.digits)),
            _ => Whole::of(self.negative, difference(&self.digits, &other.digits)),
        }
    }

    pub fn minus(&self, other: &Whole) -> Whole {
        self.plus(&Whole::of(!other.negative, other.digits.clone()))
    }

    pub fn times(&self, other: &Whole) -> Whole {
        let mut digits = vec![0; self.digits.len() + other.digits.len()];
        for (i, &x) in self.digits.iter().enumerate() {
            let mut carry = 0;
            for (j, &y) in other.digits.iter().enumerate() {
                let digit = u64::from(x) * u64::from(y) + u64::from(digits[i + j]) + carry;
                digits[i + j] = digit as u32;
                carry = digit >> 32;
            }
            digits[i + other.digits.len()] = carry as u32;
        }
        Whole::of(self.negative != other.negative, digits)
    }

    pub fn is_above(&self, other: &Whole) -> bool {
        let difference = other.minus(self);
        difference.negative && !difference.digits.is_empty()
    }
}

fn by_size(x: &[u32], y: &[u32]) -> Ordering {
    let from_the_end = |digits: &'_ [u32]| digits.iter().rev().copied().collect::<Vec<_>>();
    (x.len().cmp(&y.len())).then_with(|| from_the_end(x).cmp(&from_the_end(y)))
}

fn sum(x: &[u32], y: &[u32]) -> Vec<u32> {
    let mut carry = 0;
    let mut digits = Vec::new();
    for place in 0..=x.len().max(y.len()) {
        let digit = |of: &[u32]| u64::from(of.get(place).copied().unwrap_or(0));
        let whole = digit(x) + digit(y) + carry;
        digits.push(whole as u32);
        carry = whole >> 32;
    }
    digits
}

/// x − y, for x of at least y's size.
fn difference(x: &[u32], y: &[u32]) -> Vec<u32> {
    let mut borrowed = 0;
    let mut digits = Vec::new();
    for (place, &digit) in x.iter().enumerate() {
        let taken = i64::from(y.get(place).copied().unwrap_or(0)) + borrowed;
        borrowed = i64::from(i64::from(digit) < taken);
        digits.push((i64::from(digit) + (borrowed << 32) - taken) as u32);
    }
    digits
}

#[test]
fn small_numbers_agree_with_128_bits() {
    let numbers = [
        0,
        1,
        -1,
        5,
        -(1 << 31),
        (1 << 32) - 1,
        1 << 32,
        -(1 << 33) + 1,
        (1 << 60) + 12_345,
        -(1 << 62),
    ];
    for x in numbers {
        for y in numbers {
            let (a, b) = (Whole::from(x), Whole::from(y));
            let same = |whole: Whole, number: i128| {
                assert!(whole.minus(&Whole::from(number)).digits.is_empty())
            };
            same(a.plus(&b), x + y);
            same(a.minus(&b), x - y);
            same(a.times(&b), x * y);
            assert_eq!(a.is_above(&b), x > y);
            // (x + y)² − x² − y² is 2xy, beyond 128 bits on the way.
            let big = |whole: &Whole| whole.times(whole).times(&a);
            let left = big(&a.plus(&b)).minus(&big(&a)).minus(&big(&b));
            let right = a.times(&b).times(&a).times(&Whole::from(2));
            assert!(left.minus(&right).digits.is_empty());
        }
    }
}
