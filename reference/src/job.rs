//! Document 01, "Job text and report": reading a job, with the refusals 1 to 4.

use crate::record::{Number, TOLERANCE_LIMIT};
use crate::scatter::Sample;
use crate::text::{number, tagged, take_line};

/// `axes` reads at most this many bytes and judges those.
pub const TEXT_LIMIT: usize = 16_384;
const DIGITS: usize = 7;
const LEAST_SAMPLES: usize = 2;
pub const MOST_SAMPLES: usize = 256;

#[derive(Clone, Debug, PartialEq, Eq)]
pub struct Job {
    pub n: usize,
    pub sweep_limit: i128,
    pub tolerance: i128,
    pub samples: Vec<Sample>,
}

impl Job {
    /// The text that reads as this job, if every number is in its range.
    pub fn text(&self) -> String {
        let mut text = tagged("P", &[self.n as i128, self.sweep_limit, self.tolerance]);
        for sample in &self.samples {
            text += &tagged("S", &[&[sample.dilution], &sample.counts[..]].concat());
        }
        text + &tagged("E", &[self.samples.len() as i128])
    }

    /// The samples as they are handed over: a dilution each, and n counts each, sample after sample.
    pub fn handed_over(&self) -> (Vec<i128>, Vec<i128>) {
        let samples = self.samples.iter();
        (
            samples.clone().map(|sample| sample.dilution).collect(),
            samples.flat_map(|sample| sample.counts.clone()).collect(),
        )
    }
}

/// A refusal of job text: its number and the line, from 1.
#[derive(Clone, Copy, Debug, PartialEq, Eq)]
pub struct Refusal {
    pub number: Number,
    pub line: i128,
}

impl Refusal {
    /// The line that `axes` prints.
    pub fn text(&self) -> String {
        tagged("X", &[self.number, self.line])
    }
}

/// "Order: lines from the first; in a line 1, then 2, then 3, then 4."
pub fn read(text: &[u8]) -> Result<Job, Refusal> {
    let at = |line: i128| move |number: Number| Refusal { number, line };
    let (fields, mut rest) = take_line(text).ok_or(1).map_err(at(1))?;
    let mut job = parameters(&fields).map_err(at(1))?;
    for line in 2.. {
        let (fields, after) = take_line(rest).ok_or(1).map_err(at(line))?;
        match fields[0] {
            b"S" => {
                let sample = sample(&fields, job.n, job.samples.len()).map_err(at(line))?;
                job.samples.push(sample);
            }
            b"E" => {
                end(&fields, job.samples.len(), after).map_err(at(line))?;
                return Ok(job);
            }
            _ => return Err(at(line)(1)),
        }
        rest = after;
    }
    unreachable!("a text has an end")
}

/// `P` n (2..8), sweep limit (1..16), tolerance t in units (0..1,048,576).
fn parameters(fields: &[&[u8]]) -> Result<Job, Number> {
    if fields[0] != b"P" {
        return Err(1);
    }
    let numbers = numbers(fields, 3)?;
    let (n, sweep_limit, tolerance) = (numbers[0], numbers[1], numbers[2]);
    if !(2..=8).contains(&n)
        || !(1..=16).contains(&sweep_limit)
        || !(0..=TOLERANCE_LIMIT).contains(&tolerance)
    {
        return Err(2);
    }
    Ok(Job {
        n: n as usize,
        sweep_limit,
        tolerance,
        samples: Vec::new(),
    })
}

/// `S`: dilution (1..100) and n counts (0..65,535), after `before` lines of samples; "3 a 257th S line".
fn sample(fields: &[&[u8]], n: usize, before: usize) -> Result<Sample, Number> {
    let numbers = numbers(fields, 1 + n)?;
    let (dilution, counts) = (numbers[0], numbers[1..].to_vec());
    if !(1..=100).contains(&dilution) || counts.iter().any(|count| !(0..=65_535).contains(count)) {
        return Err(2);
    }
    if before == MOST_SAMPLES {
        return Err(3);
    }
    Ok(Sample { dilution, counts })
}

/// `E` with the number of samples; "3 .. E after fewer than 2. 4 E's number is wrong, or bytes follow E's line".
fn end(fields: &[&[u8]], before: usize, after: &[u8]) -> Result<(), Number> {
    let numbers = numbers(fields, 1)?;
    if before < LEAST_SAMPLES {
        return Err(3);
    }
    if numbers[0] != before as i128 || !after.is_empty() {
        return Err(4);
    }
    Ok(())
}

/// The numbers after the tag, `count` of them; "A field that isn't such a number is refused 1."
fn numbers(fields: &[&[u8]], count: usize) -> Result<Vec<i128>, Number> {
    let numbers: Option<Vec<i128>> = fields[1..]
        .iter()
        .map(|field| number(field, DIGITS))
        .collect();
    numbers.filter(|numbers| numbers.len() == count).ok_or(1)
}
