//! Document 01, "From readings to a table".

use crate::matrix::Matrix;
use crate::record::ENTRY_LIMIT;
use crate::rounding::rnd;

/// A sample: its dilution and its n counts.
#[derive(Clone, Debug, PartialEq, Eq)]
pub struct Sample {
    pub dilution: i128,
    pub counts: Vec<i128>,
}

impl Sample {
    /// The value z on channel i, from 1: count × dilution.
    pub fn value(&self, i: usize) -> i128 {
        self.counts[i - 1] * self.dilution
    }
}

/// The exact sums S, the shift e and the loaded entries rnd(S_ij / 2^e).
#[derive(Clone, Debug, PartialEq, Eq)]
pub struct Table {
    pub sums: Matrix,
    pub e: u32,
    pub entries: Matrix,
}

pub fn table(n: usize, samples: &[Sample]) -> Table {
    let sums = sums(n, samples);
    let e = shift(&sums);
    let entries = Matrix::by_rule(n, |i, j| rnd(sums.at(i, j), 1i128 << e));
    Table { sums, e, entries }
}

/// S_ij = k × (sum of z_i×z_j) − (sum of z_i)×(sum of z_j).
fn sums(n: usize, samples: &[Sample]) -> Matrix {
    let k = samples.len() as i128;
    let sum = |i: usize| samples.iter().map(|sample| sample.value(i)).sum::<i128>();
    let product_sum = |i: usize, j: usize| {
        samples
            .iter()
            .map(|sample| sample.value(i) * sample.value(j))
            .sum::<i128>()
    };
    Matrix::by_rule(n, |i, j| k * product_sum(i, j) - sum(i) * sum(j))
}

/// The smallest e ≥ 0 with every |S_ij| ≤ 2,097,152 × 2^e.
pub fn shift(sums: &Matrix) -> u32 {
    (0..)
        .find(|&e| {
            sums.numbers()
                .iter()
                .all(|sum| sum.abs() <= ENTRY_LIMIT << e)
        })
        .unwrap()
}
