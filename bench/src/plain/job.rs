//! Whole jobs in plain Rust: the reader of job text with its refusals, and the writer of the report.

use std::io::Write;

struct Job {
    n: usize,
    limit: u64,
    tolerance: u64,
    dilutions: Vec<u32>,
    counts: Vec<u32>,
}

/// The text that is still to be read.
struct Reader<'a> {
    rest: &'a [u8],
}

impl Reader<'_> {
    /// The tag and the tab after it; or 1.
    fn tag(&mut self) -> Result<u8, u32> {
        let [tag, b'\t', rest @ ..] = self.rest else {
            return Err(1);
        };
        self.rest = rest;
        Ok(*tag)
    }

    /// A number of 1 to 7 digits with no leading zero, and the byte `end` after it; or 1.
    fn number(&mut self, end: u8) -> Result<u32, u32> {
        let mut value = 0;
        for (at, &byte) in self.rest.iter().enumerate() {
            if byte.is_ascii_digit() {
                if at == 7 || (at == 1 && value == 0) {
                    return Err(1);
                }
                value = 10 * value + u32::from(byte - b'0');
            } else if byte == end && at > 0 {
                self.rest = &self.rest[at + 1..];
                return Ok(value);
            } else {
                return Err(1);
            }
        }
        Err(1)
    }

    /// `P`, n, the sweep limit and the tolerance.
    fn first(&mut self) -> Result<Job, u32> {
        if self.tag()? != b'P' {
            return Err(1);
        }
        let n = self.number(b'\t')?;
        let limit = self.number(b'\t')?;
        let tolerance = self.number(b'\n')?;
        if !(2..=8).contains(&n) || !(1..=16).contains(&limit) || tolerance > 1_048_576 {
            return Err(2);
        }
        Ok(Job {
            n: n as usize,
            limit: limit.into(),
            tolerance: tolerance.into(),
            dilutions: Vec::new(),
            counts: Vec::new(),
        })
    }

    /// A dilution and n counts.
    fn sample(&mut self, job: &mut Job) -> Result<(), u32> {
        let dilution = self.number(b'\t')?;
        let mut counts = [0; 8];
        for (i, count) in counts[..job.n].iter_mut().enumerate() {
            *count = self.number(if i + 1 == job.n { b'\n' } else { b'\t' })?;
        }
        let counts = &counts[..job.n];
        if !(1..=100).contains(&dilution) || counts.iter().any(|&count| count > 65_535) {
            return Err(2);
        }
        if job.dilutions.len() == 256 {
            return Err(3);
        }
        job.dilutions.push(dilution);
        job.counts.extend_from_slice(counts);
        Ok(())
    }

    /// The number of samples, and the end of the text.
    fn last(&mut self, job: &Job) -> Result<(), u32> {
        let count = self.number(b'\n')?;
        if job.dilutions.len() < 2 {
            return Err(3);
        }
        if count as usize != job.dilutions.len() || !self.rest.is_empty() {
            return Err(4);
        }
        Ok(())
    }
}

/// The job, or the refusal's number and line.
fn read(text: &[u8]) -> Result<Job, (u32, usize)> {
    let mut reader = Reader { rest: text };
    let mut job = reader.first().map_err(|number| (number, 1))?;
    for line in 2.. {
        let at_line = |number| (number, line);
        match reader.tag().map_err(at_line)? {
            b'S' => reader.sample(&mut job).map_err(at_line)?,
            b'E' => {
                reader.last(&job).map_err(at_line)?;
                break;
            }
            _ => return Err(at_line(1)),
        }
    }
    Ok(job)
}

fn write(job: &Job, e: i64, solution: &[i64]) -> std::io::Result<Vec<u8>> {
    let n = job.n;
    let k = job.dilutions.len();
    let outcome = ["settled", "still", "spent"][solution[0] as usize];
    let mut text = Vec::with_capacity(2048);
    writeln!(
        text,
        "R\t{n}\t{k}\t{e}\t{}\t{}\t{outcome}",
        solution[1], solution[2]
    )?;
    let mut axes: Vec<_> = (1..).zip(solution[3..].chunks(n + 2)).collect();
    // stable, so equal entries stay in channel order
    axes.sort_by_key(|(_, axis)| std::cmp::Reverse(axis[0]));
    for (i, axis) in axes {
        write!(text, "A\t{i}")?;
        for number in axis {
            write!(text, "\t{number}")?;
        }
        text.push(b'\n');
    }
    Ok(text)
}

/// What `field_axes_report` does: the report's length, or the refusal's number and line.
#[inline(never)]
pub fn report(text: &[u8], out: &mut [u8]) -> Result<usize, (u32, usize)> {
    let job = read(text)?;
    let n = job.n;
    let mut table = [0; 1 + 2 * 64];
    super::table(n, &job.dilutions, &job.counts, &mut table);
    let entries = &table[1 + n * n..][..n * n];
    let mut solution = [0; 3 + 8 * 10];
    let count = super::solve::<false>(n, entries, job.limit, job.tolerance, &mut solution);
    if table[0] > 0 {
        for axis in solution[3..count].chunks_mut(n + 2) {
            axis[1] += 512 * n as i64;
        }
    }
    let report = write(&job, table[0], &solution[..count]).expect("a vector takes all bytes");
    out.get_mut(..report.len())
        .ok_or((12, 0))?
        .copy_from_slice(&report);
    Ok(report.len())
}
