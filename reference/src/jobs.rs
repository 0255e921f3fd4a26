//! The stored jobs of the test program `test_jobs`: their container, and what the program must print.

mod accepted;
mod buffers;
mod many;
mod refused;

use crate::record::ENTRY_LIMIT;
use crate::report::{report_into, Denied};

/// A count of 65,535 at a dilution of 100.
const GREATEST_VALUE: i128 = 6_553_500;

/// The buffer that the programs lend: no report has more bytes.
const BUFFER: usize = 2048;

/// A job text, the size of the buffer that is lent for its report, and what it is there for.
#[derive(Clone)]
pub struct Stored {
    pub name: String,
    pub text: Vec<u8>,
    pub size: usize,
}

impl Stored {
    fn report(&self) -> Result<Vec<u8>, Denied> {
        let mut buffer = vec![0; self.size];
        let length = report_into(&self.text, &mut buffer)?;
        buffer.truncate(length);
        Ok(buffer)
    }

    /// The report, or the `X` line of the refusal.
    fn output(&self) -> Vec<u8> {
        self.report()
            .unwrap_or_else(|denied| denied.text().into_bytes())
    }
}

/// Every stored job, in order.
pub fn jobs() -> Vec<Stored> {
    [
        accepted::jobs(),
        refused::jobs(),
        many::jobs(),
        buffers::jobs(),
    ]
    .into_iter()
    .flatten()
    .collect()
}

/// For each job its length in bytes, a blank, the size of its buffer and a line feed, then its bytes.
pub fn container() -> Vec<u8> {
    jobs()
        .iter()
        .flat_map(|job| {
            let head = format!("{} {}\n", job.text.len(), job.size);
            [head.as_bytes(), &job.text].concat()
        })
        .collect()
}

/// For each job its report, or the `X` line of its refusal.
pub fn outputs() -> Vec<u8> {
    jobs().iter().flat_map(Stored::output).collect()
}

/// For each job its place from 1, its length, the first line of its output, and its name.
pub fn names() -> String {
    (1..)
        .zip(jobs())
        .map(|(place, job)| {
            let output = String::from_utf8(job.output()).expect("ASCII");
            let first = output.lines().next().unwrap_or("");
            format!(
                "{place}: {} bytes, {}: {}\n",
                job.text.len(),
                first.replace('\t', " "),
                job.name
            )
        })
        .collect()
}

/// The greatest whole number whose square, as the greatest S, has the shift e.
fn greatest_root(e: u32) -> i128 {
    (ENTRY_LIMIT << e).isqrt()
}

/// A job written with blanks for tabs.
fn written(name: impl ToString, text: &str) -> Stored {
    raw(name, text.replace(' ', "\t").as_bytes())
}

fn raw(name: impl ToString, text: &[u8]) -> Stored {
    Stored {
        name: name.to_string(),
        text: text.to_vec(),
        size: BUFFER,
    }
}

#[cfg(test)]
mod tests {
    use super::*;
    use crate::choice::choose;
    use crate::job;
    use crate::record::Record;
    use crate::scatter::table;
    use crate::{solve, Outcome, Run};
    use std::collections::BTreeSet;

    /// The job and the shift and run of each accepted one.
    fn accepted() -> Vec<(job::Job, u32, Run)> {
        jobs()
            .iter()
            .filter_map(|stored| job::read(&stored.text).ok())
            .map(|job| {
                let table = table(job.n, &job.samples);
                let run = solve(
                    job.n as i128,
                    table.entries.numbers(),
                    job.sweep_limit,
                    job.tolerance,
                );
                (job, table.e, run.unwrap())
            })
            .collect()
    }

    #[test]
    fn no_name_comes_twice_and_no_text_with_the_same_buffer() {
        let jobs = jobs();
        assert!(jobs.len() >= 80);
        let names: BTreeSet<&str> = jobs.iter().map(|job| &job.name[..]).collect();
        let texts: BTreeSet<_> = jobs.iter().map(|job| (&job.text, job.size)).collect();
        assert_eq!((names.len(), texts.len()), (jobs.len(), jobs.len()));
    }

    #[test]
    fn the_container_is_below_64_kib_and_gives_the_jobs_back() {
        let container = container();
        assert!(container.len() < 65_536);
        let mut rest = &container[..];
        for job in jobs() {
            let end = rest.iter().position(|&byte| byte == b'\n').unwrap();
            let head = std::str::from_utf8(&rest[..end]).unwrap();
            let (length, size) = head.split_once(' ').unwrap();
            let (text, after) = rest[end + 1..].split_at(length.parse().unwrap());
            assert_eq!((text, size.parse()), (&job.text[..], Ok(job.size)));
            rest = after;
        }
        assert!(rest.is_empty());
    }

    #[test]
    fn every_refusal_outcome_channel_number_and_shift_is_there() {
        let refusals: BTreeSet<i128> = jobs()
            .iter()
            .filter_map(|stored| stored.report().err())
            .map(Denied::number)
            .collect();
        assert!(refusals.into_iter().eq([1, 2, 3, 4, 12]));
        let accepted = accepted();
        let shifts: BTreeSet<u32> = accepted.iter().map(|(_, e, _)| *e).collect();
        assert!(shifts.into_iter().eq(0..=39));
        for outcome in [Outcome::Settled, Outcome::Still, Outcome::Spent] {
            for swept in [false, true] {
                let found = accepted
                    .iter()
                    .any(|(_, _, run)| run.outcome == outcome && (run.sweeps > 0) == swept);
                // Only `settled` comes before a sweep.
                assert_eq!(found, swept || outcome == Outcome::Settled);
            }
        }
        for n in 2..=8 {
            assert!(accepted.iter().any(|(job, _, run)| job.n == n && run.m > 0));
        }
        for k in [2, 256] {
            assert!(accepted.iter().any(|(job, _, _)| job.samples.len() == k));
        }
        assert!(accepted.iter().any(|(_, _, run)| run.sweeps == 16));
        let axes = || accepted.iter().flat_map(|(_, _, run)| &run.axes);
        assert!(axes().any(|axis| axis.a_ii < 0));
        assert!(axes().any(|axis| axis.row.iter().any(|&number| number < 0)));
    }

    /// The number, or numbers, that a name states after some words.
    fn stated(name: &str, words: &str) -> Option<Vec<i128>> {
        let (_, after) = name.split_once(words)?;
        after
            .split(", ")
            .map_while(|number| number.parse().ok())
            .map(Some)
            .collect()
    }

    #[test]
    fn blocks_sums_and_shifts_are_as_named() {
        let mut seen = 0;
        for stored in jobs() {
            let Ok(job) = job::read(&stored.text) else {
                continue;
            };
            let table = table(job.n, &job.samples);
            let block = [(1, 1), (1, 2), (2, 2)].map(|(i, j)| table.entries.at(i, j));
            let greatest = table.sums.numbers().iter().map(|sum| sum.abs()).max();
            for (words, found) in [
                ("block ", block.to_vec()),
                ("S is ", vec![greatest.unwrap()]),
                ("shift ", vec![i128::from(table.e)]),
            ] {
                if let Some(numbers) = stated(&stored.name, words) {
                    assert_eq!(numbers, found, "{}", stored.name);
                    seen += 1;
                }
            }
        }
        assert_eq!(seen, 4 + 3 + 64);
    }

    /// Names that begin with an order of axes: that one is printed.
    #[test]
    fn axes_are_in_the_order_that_is_named() {
        let mut seen = 0;
        for stored in jobs() {
            let Some((order, _)) = stored
                .name
                .strip_prefix("order ")
                .and_then(|name| name.split_once(": "))
            else {
                continue;
            };
            let report = String::from_utf8(stored.report().unwrap()).unwrap();
            let printed: Vec<&str> = report
                .lines()
                .skip(1)
                .map(|line| line.split('\t').nth(1).unwrap())
                .collect();
            assert_eq!(printed.join(", "), order, "{}", stored.name);
            seen += 1;
        }
        assert_eq!(seen, 11);
    }

    #[test]
    fn every_turn_is_chosen() {
        let mut chosen = BTreeSet::new();
        for (job, _, run) in accepted() {
            let n = job.n as i128;
            let mut record = Record::fresh();
            record
                .load(1, n, table(job.n, &job.samples).entries.numbers())
                .unwrap();
            for _ in 0..run.sweeps {
                for p in 1..=job.n {
                    for q in p + 1..=job.n {
                        let a = &record.kept().unwrap().a;
                        if let Some(choice) = choose(a.at(p, p), a.at(q, q), a.at(p, q)) {
                            chosen.insert((choice.l, choice.f));
                        }
                        record.turn(1, p as i128, q as i128).unwrap();
                    }
                }
            }
            assert_eq!(record.kept().unwrap().m, run.m);
        }
        assert_eq!(chosen.len(), 28, "{chosen:?}");
    }

    /// A text beyond the limit is refused alike, whole or cut to it: 256 samples and E end before it.
    #[test]
    fn a_text_beyond_the_limit_is_judged_as_its_beginning() {
        let tails = [vec![b'x'; 20_000], b"S\t1\t0\t0\n".repeat(2_500)];
        for stored in jobs() {
            for tail in &tails {
                let text = [&stored.text[..], tail].concat();
                assert_eq!(job::read(&text), job::read(&text[..job::TEXT_LIMIT]));
            }
        }
    }
}
