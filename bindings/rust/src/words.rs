//! Refusals in words, those of docs/USING.md, and as errors.

use crate::{JobRefused, Refused};
use std::error::Error;
use std::fmt::{Display, Formatter, Result};

/// What refusals 1 to 16 say, each at its number less 1.
const WORDS: [&str; 16] = [
    "a line is malformed or missing",
    "a number is out of its range",
    "there are fewer than 2 or more than 256 samples",
    "the number on line E is not that of the samples, or something follows that line",
    "a matrix has fewer than 2 or more than 8 channels",
    "there are not n numbers to each of the n rows, or not n counts to each sample",
    "the matrix is not symmetric",
    "an entry of the matrix is beyond ±2,097,152",
    "there is no such pair of channels p < q, or no such axis",
    "no matrix is loaded",
    "of the 448 turns that a matrix has, too few are left",
    "the buffer is too short for what is written",
    "the two jobs differ in their number of channels",
    "there is no sample of that number",
    "the bench is not one of 1 to 4",
    "a season has at most 10,000 jobs",
];

impl Refused {
    /// What the refusal says, without its number.
    pub fn words(self) -> &'static str {
        let Refused(number) = self;
        let at = (number as usize).wrapping_sub(1);
        WORDS.get(at).unwrap_or(&"no refusal has this number")
    }
}

impl Display for Refused {
    fn fmt(&self, f: &mut Formatter<'_>) -> Result {
        write!(f, "refused {}: {}", self.0, self.words())
    }
}

impl Error for Refused {}

impl Display for JobRefused {
    fn fmt(&self, f: &mut Formatter<'_>) -> Result {
        // A short buffer is of no line.
        if self.line > 0 {
            write!(f, "line {}: ", self.line)?;
        }
        Refused(self.number).fmt(f)
    }
}

impl Error for JobRefused {}
