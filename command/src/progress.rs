//! A bar on standard error that shows how far the reading of many files is; only at a terminal.

use std::io::{self, IsTerminal, Write};

const WIDTH: usize = 40;

pub struct Progress {
    of: usize,
    shown: bool,
}

impl Progress {
    pub fn new(of: usize) -> Progress {
        // A few files need none.
        let shown = of > 1 && io::stderr().is_terminal();
        Progress { of, shown }
    }

    /// So many are done. It is drawn anew where that shows.
    pub fn at(&self, done: usize) {
        let step = self.of.div_ceil(WIDTH * 5);
        if self.shown && (done % step == 0 || done == self.of) {
            let full = WIDTH * done / self.of;
            let bar = "#".repeat(full) + &".".repeat(WIDTH - full);
            // What can't be shown is not missed.
            let _ = write!(io::stderr(), "\r[{bar}] {done} of {}", self.of);
        }
    }

    /// Nothing of it stays.
    pub fn end(&self) {
        if self.shown {
            let _ = write!(io::stderr(), "\r\x1b[K");
        }
    }
}
