//! Stored jobs at refusal 12: buffers of other sizes, and that it comes last.

use super::{written, Stored};
use crate::examples;

pub fn jobs() -> Vec<Stored> {
    [sizes(), order()].concat()
}

fn lent(mut job: Stored, size: usize) -> Stored {
    job.name += &format!(", buffer of {size}");
    job.size = size;
    job
}

/// "12 report longer than the buffer": no byte, one, all but the last line, all but the last byte, just enough, one more.
fn sizes() -> Vec<Stored> {
    [
        ("printed example", examples::PRINTED),
        (
            "spent on 8 channels",
            "P 8 16 0\nS 1 1 1 1 1 0 1 2 0\nS 1 0 3 2 3 3 0 0 3\nE 2\n",
        ),
    ]
    .into_iter()
    .flat_map(|(name, text)| {
        let report = written(name, text).output();
        let length = report.len();
        let mut lines = report.split_inclusive(|&byte| byte == b'\n');
        let last = lines.next_back().expect("a line").len();
        [0, 1, length - last, length - 1, length, length + 1]
            .map(|size| lent(written(format!("{name}, {length} bytes"), text), size))
    })
    .collect()
}

/// "12 last": the refusals of a job text come before it.
fn order() -> Vec<Stored> {
    [
        ("1 before 12", "P 2 1 00\n"),
        ("2 before 12", "P 9 1 0\n"),
        ("3 before 12", "P 2 1 0\nS 1 0 1\nE 1\n"),
        ("4 before 12", "P 2 1 0\nS 1 0 1\nS 1 1 0\nE 3\n"),
    ]
    .map(|(name, text)| lent(written(name, text), 0))
    .into()
}
