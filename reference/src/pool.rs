//! Document 02, W6: two jobs pooled, and the program `pool`.

use crate::files::{named, Files};
use crate::job::{self, Job, MOST_SAMPLES};
use crate::readings;
use crate::record::Number;
use crate::report::report;
use crate::text::tagged;

/// A job "handed over as to W1's writer".
pub struct Given<'a> {
    pub n: i128,
    pub limit: i128,
    pub tolerance: i128,
    pub dilutions: &'a [i128],
    pub counts: &'a [i128],
}

impl Given<'_> {
    fn job(&self) -> Result<Job, Number> {
        let Given {
            n,
            limit,
            tolerance,
            dilutions,
            counts,
        } = *self;
        readings::job(n, limit, tolerance, dilutions, counts)
    }
}

/// The pooled job. "Jobs with unequal channel numbers give 13, tried first; then 2, 6 and 3 as in W1, the first job before the second; then more than
/// 256 samples together give 3".
pub fn pooled(first: &Given, second: &Given) -> Result<Job, Number> {
    if first.n != second.n {
        return Err(13);
    }
    joined(&first.job()?, &second.job()?)
}

/// "a job with the first one's S lines followed by the second one's, and its sweep limit and tolerance are the first one's"
fn joined(first: &Job, second: &Job) -> Result<Job, Number> {
    if first.n != second.n {
        return Err(13);
    }
    let samples = [&first.samples[..], &second.samples].concat();
    if samples.len() > MOST_SAMPLES {
        return Err(3);
    }
    Ok(Job {
        samples,
        ..first.clone()
    })
}

/// What two job texts come to: the report; or `X`, the refusal's number, its line and its job. A text that is refused has no channel number, so 13
/// comes after both are read; of 13 and of too many samples together line and job are 0.
pub fn answer(first: &[u8], second: &[u8]) -> String {
    let read = |text, place| {
        job::read(text).map_err(|refusal| tagged("X", &[refusal.number, refusal.line, place]))
    };
    let both = read(first, 1).and_then(|first| Ok((first, read(second, 2)?)));
    match both {
        Err(refused) => refused,
        Ok((first, second)) => match joined(&first, &second) {
            Err(number) => tagged("X", &[number, 0, 0]),
            Ok(job) => report(&job),
        },
    }
}

/// The program `pool`, with two file names as its arguments: `?` and the number of the first argument that is missing, empty, too long or can't be
/// opened; then of a third one.
pub fn program<Word: AsRef<[u8]>>(arguments: &[Word], files: Files) -> String {
    let text = |place: i128| {
        let argument = arguments.get(place as usize - 1).map(AsRef::as_ref);
        argument
            .and_then(|name| named(name, job::TEXT_LIMIT, files))
            .ok_or(place)
    };
    let texts = text(1).and_then(|first| Ok((first, text(2)?)));
    match texts {
        Err(place) => tagged("?", &[place]),
        Ok(_) if arguments.len() > 2 => tagged("?", &[3]),
        Ok((first, second)) => answer(&first, &second),
    }
}

#[cfg(test)]
mod tests {
    use super::*;
    use crate::examples::{tabs, PRINTED};
    use crate::generate_job;
    use crate::report_of;
    use crate::scatter::table;

    /// The channel sum of a job on channel i, from 1.
    fn channel_sum(job: &Job, i: usize) -> i128 {
        job.samples.iter().map(|sample| sample.value(i)).sum()
    }

    /// The cross sum of a job on channels i and j.
    fn cross_sum(job: &Job, i: usize, j: usize) -> i128 {
        job.samples
            .iter()
            .map(|sample| sample.value(i) * sample.value(j))
            .sum()
    }

    /// "Pool two jobs .. by adding their sample numbers, channel sums and cross sums": S by these sums alone is that of the pooled job, and the
    /// report that of the joined text.
    #[test]
    fn added_sums_are_those_of_the_joined_job() {
        let mut seen = 0;
        let jobs: Vec<Job> = (0..600)
            .filter_map(|seed| job::read(&generate_job(seed)).ok())
            .collect();
        for (first, second) in jobs.iter().zip(&jobs[1..]) {
            let Ok(job) = joined(first, second) else {
                assert!(first.n != second.n || first.samples.len() + second.samples.len() > 256);
                continue;
            };
            seen += 1;
            let k = (first.samples.len() + second.samples.len()) as i128;
            let channel = |i: usize| channel_sum(first, i) + channel_sum(second, i);
            let table = table(job.n, &job.samples);
            for i in 1..=job.n {
                for j in i..=job.n {
                    let cross = cross_sum(first, i, j) + cross_sum(second, i, j);
                    let s = k * cross - channel(i) * channel(j);
                    assert_eq!(s, table.sums.at(i, j));
                }
            }
            let text = job.text();
            let lines: Vec<&str> = text.lines().collect();
            let [one, other] = [first, second].map(Job::text);
            let samples = |text: &str| {
                text.lines()
                    .filter(|line| line.starts_with('S'))
                    .map(str::to_string)
                    .collect::<Vec<_>>()
            };
            assert_eq!(lines[0], one.lines().next().unwrap());
            assert!(lines[1..lines.len() - 1]
                .iter()
                .map(|line| line.to_string())
                .eq([samples(&one), samples(&other)].concat()));
            assert_eq!(
                answer(one.as_bytes(), other.as_bytes()).into_bytes(),
                report_of(text.as_bytes())
            );
        }
        assert!(seen > 20, "{seen}");
    }

    fn given<'a>(n: i128, limit: i128, dilutions: &'a [i128], counts: &'a [i128]) -> Given<'a> {
        Given {
            n,
            limit,
            tolerance: 0,
            dilutions,
            counts,
        }
    }

    #[test]
    fn refusals_come_in_their_order() {
        let ones = [1; 257];
        let zeros = [0; 514];
        let good = given(2, 1, &ones[..2], &zeros[..4]);
        let of = |first: &Given, second: &Given| pooled(first, second).err();
        assert_eq!(of(&good, &good), None);
        // 13 before all else.
        for n in [0, 1, 3, 9, -1] {
            for bad in [
                given(n, 0, &ones, &zeros[..1]),
                given(n, 1, &ones[..1], &[65_536]),
            ] {
                assert_eq!(of(&good, &bad), Some(13), "{n}");
                assert_eq!(of(&bad, &good), Some(13), "{n}");
            }
            let same = given(n, 1, &ones[..2], &zeros[..6]);
            assert_eq!(of(&same, &same), if n == 3 { None } else { Some(2) }, "{n}");
        }
        // All of the first before the second.
        let two = given(2, 17, &ones[..2], &zeros[..4]);
        let six = given(2, 1, &ones[..2], &zeros[..5]);
        let three = given(2, 1, &ones[..1], &zeros[..2]);
        for (first, second, number) in [
            (&three, &two, 3),
            (&six, &two, 6),
            (&two, &three, 2),
            (&three, &six, 3),
            (&good, &two, 2),
            (&good, &six, 6),
            (&good, &three, 3),
        ] {
            assert_eq!(of(first, second), Some(number));
        }
        // 256 and 257 together.
        let most = given(2, 1, &ones[..254], &zeros[..508]);
        assert_eq!(of(&most, &good), None);
        assert_eq!(of(&good, &most), None);
        let more = given(2, 1, &ones[..255], &zeros[..510]);
        assert_eq!(of(&more, &good), Some(3));
        assert_eq!(of(&good, &more), Some(3));
    }

    #[test]
    fn limit_and_tolerance_are_the_first_one_s() {
        let first = job::read(&tabs(PRINTED)).unwrap();
        let second = job::read(&tabs("P 2 16 7\nS 2 1 3\nS 1 0 4\nE 2\n")).unwrap();
        let job = joined(&first, &second).unwrap();
        assert_eq!(
            (job.sweep_limit, job.tolerance, job.samples.len()),
            (1, 0, 5)
        );
        let job = joined(&second, &first).unwrap();
        assert_eq!(
            (job.sweep_limit, job.tolerance, job.samples.len()),
            (16, 7, 5)
        );
    }
}
