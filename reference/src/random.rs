//! A small generator of pseudo-random numbers (splitmix64): the same seed gives the same numbers everywhere.

pub struct Random {
    state: u64,
}

impl Random {
    pub fn new(seed: u64) -> Random {
        Random { state: seed }
    }

    fn next(&mut self) -> u64 {
        self.state = self.state.wrapping_add(0x9e37_79b9_7f4a_7c15);
        let mut z = self.state;
        z = (z ^ (z >> 30)).wrapping_mul(0xbf58_476d_1ce4_e5b9);
        z = (z ^ (z >> 27)).wrapping_mul(0x94d0_49bb_1331_11eb);
        z ^ (z >> 31)
    }

    /// A number from low to high, both included.
    pub fn between(&mut self, low: i128, high: i128) -> i128 {
        let wide = (i128::from(self.next()) << 62) | i128::from(self.next() >> 2);
        low + wide % (high - low + 1)
    }

    /// An index below length.
    pub fn index(&mut self, length: usize) -> usize {
        self.between(0, length as i128 - 1) as usize
    }

    pub fn one_in(&mut self, n: i128) -> bool {
        self.between(1, n) == 1
    }

    pub fn pick<T: Copy>(&mut self, from: &[T]) -> T {
        from[self.index(from.len())]
    }

    /// A number from 0 to most, each size in bits about as likely as another.
    pub fn sized(&mut self, most: i128) -> i128 {
        let bits = self.between(0, i128::from(i128::BITS - most.leading_zeros()));
        self.between(0, ((1i128 << bits) - 1).min(most))
    }

    /// A number from −most to most: 0, small, extreme, beside a power of two, evenly spread, or of any size.
    pub fn spread(&mut self, most: i128) -> i128 {
        let size = match self.between(0, 9) {
            0 => 0,
            1 => self.between(0, 8),
            2 => most,
            3 => most - self.between(0, 8),
            4 => (1i128 << self.between(0, 62)) + self.between(-2, 2),
            5 | 6 => self.between(0, most),
            _ => self.sized(most),
        };
        let size = size.clamp(0, most);
        if self.one_in(2) {
            size
        } else {
            -size
        }
    }
}
