//! What ends the command before its answer, and the exit status of each.

use std::fmt::{Display, Formatter, Result};
use std::io;

pub enum Failure {
    /// The command line is wrong.
    Usage(String),
    /// The input is refused, or can't be read.
    Refused(String),
    /// An answer can't be written: where to, and why.
    Output(String, io::Error),
}

impl Failure {
    pub fn status(&self) -> u8 {
        match self {
            Failure::Usage(_) => 2,
            Failure::Refused(_) | Failure::Output(..) => 1,
        }
    }

    /// Whoever reads the answer has closed it and knows.
    pub fn is_silent(&self) -> bool {
        matches!(self, Failure::Output(_, error) if error.kind() == io::ErrorKind::BrokenPipe)
    }
}

impl Display for Failure {
    fn fmt(&self, f: &mut Formatter<'_>) -> Result {
        match self {
            Failure::Usage(why) => write!(f, "{why}\nSee `field-axes --help`."),
            Failure::Refused(why) => f.write_str(why),
            Failure::Output(place, error) => write!(f, "{place}: can't be written: {error}"),
        }
    }
}
