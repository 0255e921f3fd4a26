//! Random samples as they are handed over: n, a dilution each, and n counts each, sample after sample.

use crate::random::Random;

#[derive(Debug)]
pub struct Samples {
    pub n: usize,
    pub dilutions: Vec<u32>,
    pub counts: Vec<u32>,
}

impl Samples {
    /// Samples that nothing refuses, of one of several kinds.
    pub fn good(random: &mut Random) -> Samples {
        let n = random.between(2, 8) as usize;
        let k = match random.between(0, 9) {
            0 => 256,
            1 | 2 => 2,
            _ => random.sized(256).max(2),
        };
        let kind = random.between(0, 4);
        let mut dilutions = Vec::new();
        let mut counts = Vec::new();
        for _ in 0..k {
            dilutions.push(match kind {
                0 => 1,
                1 => 100,
                _ => random.between(1, 100) as u32,
            });
            for _ in 0..n {
                counts.push(match kind {
                    0 => random.between(0, 5),
                    1 => random.pick(&[0, 65_535]),
                    2 => 65_535,
                    3 => random.sized(65_535),
                    _ => random.between(0, 65_535),
                } as u32);
            }
        }
        Samples {
            n,
            dilutions,
            counts,
        }
    }

    /// A value out of its range, counts too many or too few, or too few or too many samples.
    pub fn damage(&mut self, random: &mut Random) {
        let Samples {
            n,
            dilutions,
            counts,
        } = self;
        match random.between(0, 5) {
            0 => *n = random.pick(&[0, 1, 2, 3, 8, 9, usize::MAX]),
            1 if !dilutions.is_empty() => {
                *random.place(dilutions) = random.pick(&[0, 101, u32::MAX]);
            }
            2 if !counts.is_empty() => {
                *random.place(counts) = random.pick(&[65_536, u32::MAX]);
            }
            3 => counts.truncate(random.between(0, counts.len() as i64) as usize),
            4 => counts.push(0),
            _ => {
                let k = random.pick(&[0, 1, 257, 300]);
                dilutions.resize(k, 1);
                counts.resize(k * (*n).min(9), 1);
            }
        }
    }

    /// The dilutions and the counts as the reference takes them.
    pub fn wide(&self) -> (Vec<i128>, Vec<i128>) {
        let wide = |numbers: &[u32]| numbers.iter().map(|&number| number.into()).collect();
        (wide(&self.dilutions), wide(&self.counts))
    }
}
