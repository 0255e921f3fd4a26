//! Pseudo-random numbers (xorshift64*): the same seed gives the same numbers everywhere.

pub struct Random(u64);

impl Random {
    pub fn new(seed: u64) -> Random {
        let mut random = Random(seed.wrapping_mul(0x9e37_79b9_7f4a_7c15) | 1);
        for _ in 0..4 {
            random.next();
        }
        random
    }

    pub fn next(&mut self) -> u64 {
        self.0 ^= self.0 >> 12;
        self.0 ^= self.0 << 25;
        self.0 ^= self.0 >> 27;
        self.0.wrapping_mul(0x2545_f491_4f6c_dd1d)
    }

    /// A number from low to high, both included.
    pub fn between(&mut self, low: i64, high: i64) -> i64 {
        low + ((u128::from(self.next()) * (high - low + 1) as u128) >> 64) as i64
    }

    pub fn one_in(&mut self, n: i64) -> bool {
        self.between(1, n) == 1
    }

    pub fn pick<T: Copy>(&mut self, from: &[T]) -> T {
        from[self.between(0, from.len() as i64 - 1) as usize]
    }

    /// A place of a list that is not empty.
    pub fn place<'a, T>(&mut self, from: &'a mut [T]) -> &'a mut T {
        let place = self.between(0, from.len() as i64 - 1) as usize;
        &mut from[place]
    }

    /// A number from 0 to most, each size in bits about as likely as another.
    pub fn sized(&mut self, most: i64) -> i64 {
        let bits = self.between(0, i64::from(64 - most.leading_zeros()));
        self.between(0, ((1 << bits) - 1).min(most))
    }

    pub fn bytes(&mut self, count: usize) -> Vec<u8> {
        (0..count).map(|_| self.next() as u8).collect()
    }
}
