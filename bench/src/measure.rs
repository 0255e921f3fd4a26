//! Numbers to measure on, and the least time of pieces of work.

use std::time::Instant;

const ROUNDS: usize = 100;

/// Numbers of a fixed sequence, from −most to most.
pub struct Sequence(pub u64);

impl Sequence {
    pub fn next(&mut self) -> u64 {
        self.0 ^= self.0 << 13;
        self.0 ^= self.0 >> 7;
        self.0 ^= self.0 << 17;
        self.0
    }

    pub fn spread(&mut self, most: u64) -> i64 {
        (self.next() % (2 * most + 1)) as i64 - most as i64
    }
}

/// The least time of each piece of work, run in turn, in nanoseconds: what else the machine does only adds to a time.
pub fn least<const PIECES: usize>(mut pieces: [&mut dyn FnMut(); PIECES]) -> [f64; PIECES] {
    let mut times = [f64::INFINITY; PIECES];
    for _ in 0..ROUNDS {
        for (time, work) in times.iter_mut().zip(&mut pieces) {
            let start = Instant::now();
            work();
            *time = (start.elapsed().as_secs_f64() * 1e9).min(*time);
        }
    }
    times
}
