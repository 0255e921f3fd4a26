//! Document 02, W14: the season report, and the program `season`.

use crate::files::{named, Files};
use crate::job::{self, Refusal};
use crate::record::Number;
use crate::report::{job_run, Outcome, Run};
use crate::text::{line, tagged};

/// "up to 10,000 jobs"
pub const MOST_JOBS: usize = 10_000;

/// What a job of a season comes to: its run, or its refusal.
pub type Taken = Result<Run, Refusal>;

pub fn taken(text: &[u8]) -> Taken {
    job::read(text).map(|job| job_run(&job).1)
}

/// "one line of exact whole numbers parted by tabs: jobs, how many ended settled, still and spent, how many were refused under each number 1 to 4,
/// total turns, the largest r_i, the first job that has it and the lowest axis number in that job that has it". "If no job was accepted, the largest
/// error, its job and its axis are printed as 0."
pub fn season_line(jobs: &[Taken]) -> String {
    let runs = || jobs.iter().flatten();
    let ended = |outcome| runs().filter(|run| run.outcome == outcome).count() as i128;
    let refused = |number| {
        let under = jobs
            .iter()
            .filter(|job| job.as_ref().is_err_and(|refusal| refusal.number == number));
        under.count() as i128
    };
    let errors = |run: &Run| run.axes.iter().map(|axis| axis.r_i).collect::<Vec<_>>();
    // "Jobs are numbered from 1, refused ones included."
    let largest = runs().flat_map(errors).max().map(|largest| {
        let has_it = |job: &Taken| job.as_ref().is_ok_and(|run| errors(run).contains(&largest));
        let first = jobs.iter().position(has_it).expect("one of the jobs");
        let run = jobs[first].as_ref().expect("accepted");
        let lowest = errors(run).iter().position(|&error| error == largest);
        [
            largest,
            first as i128 + 1,
            lowest.expect("one of its axes") as i128 + 1,
        ]
    });
    let mut figures = vec![jobs.len() as i128];
    figures.extend([Outcome::Settled, Outcome::Still, Outcome::Spent].map(ended));
    figures.extend([1, 2, 3, 4].map(refused));
    figures.push(runs().map(|run| run.m).sum());
    figures.extend(largest.unwrap_or([0; 3]));
    line(figures)
}

/// The line of texts one after another in one buffer, by the end of each. An end below the one before it or beyond the buffer gives 2, then more than
/// 10,000 jobs 16.
pub fn of_buffer(texts: &[u8], ends: &[usize]) -> Result<String, Number> {
    let starts = [0].iter().chain(ends);
    let parts: Option<Vec<&[u8]>> = starts
        .zip(ends)
        .map(|(&start, &end)| texts.get(start..end))
        .collect();
    let parts = parts.ok_or(2)?;
    if parts.len() > MOST_JOBS {
        return Err(16);
    }
    let jobs: Vec<Taken> = parts.into_iter().map(taken).collect();
    Ok(season_line(&jobs))
}

/// The program `season`, with file names as its arguments, a job each: the line, and `X` and 16 after it where there are more than 10,000, which are
/// not opened; or `?` and the number of the first argument that is empty, too long or can't be opened.
pub fn program<Word: AsRef<[u8]>>(arguments: &[Word], files: Files) -> String {
    let mut jobs = Vec::new();
    for (place, name) in (1..).zip(arguments.iter().take(MOST_JOBS)) {
        let Some(text) = named(name.as_ref(), job::TEXT_LIMIT, files) else {
            return tagged("?", &[place]);
        };
        jobs.push(taken(&text));
    }
    let line = season_line(&jobs);
    if arguments.len() > MOST_JOBS {
        return line + &tagged("X", &[16]);
    }
    line
}

#[cfg(test)]
mod tests {
    use super::*;
    use crate::random::Random;
    use crate::record::Axis;
    use crate::{generate_job, report_of};

    fn run(outcome: Outcome, m: i128, errors: &[i128]) -> Taken {
        let axis = |&r_i: &i128| Axis {
            a_ii: 0,
            r_i,
            row: Vec::new(),
        };
        Ok(Run {
            sweeps: 1,
            m,
            outcome,
            axes: errors.iter().map(axis).collect(),
        })
    }

    fn refused(number: Number) -> Taken {
        Err(Refusal { number, line: 1 })
    }

    fn printed(jobs: &[Taken]) -> String {
        season_line(jobs).replace('\t', " ")
    }

    #[test]
    fn figures_by_hand() {
        use Outcome::{Settled, Spent, Still};
        assert_eq!(printed(&[]), "0 0 0 0 0 0 0 0 0 0 0 0\n");
        let only_refused: Vec<Taken> = [1, 4, 3, 3, 2].map(refused).into();
        assert_eq!(printed(&only_refused), "5 0 0 0 1 1 2 1 0 0 0 0\n");
        // Errors of 0 have a job and an axis too.
        let zeros = [
            refused(4),
            run(Settled, 0, &[0, 0]),
            run(Settled, 0, &[0, 0, 0]),
        ];
        assert_eq!(printed(&zeros), "3 2 0 0 0 0 0 1 0 0 2 1\n");
        // The first job that has the largest, and its lowest axis; refused ones are numbered.
        let ties = [
            run(Spent, 5, &[6, 7]),
            refused(2),
            run(Still, 3, &[7, 8, 8]),
            run(Spent, 448, &[8, 8]),
            run(Settled, 0, &[1, 1]),
        ];
        assert_eq!(printed(&ties), "5 1 1 2 0 1 0 0 456 8 3 2\n");
    }

    /// Each job once more: outcomes and refusals together make the number of jobs, and each figure is that of the reports.
    #[test]
    fn figures_are_those_of_the_reports() {
        let mut random = Random::new(14);
        for seed in 0..60u64 {
            let texts: Vec<Vec<u8>> = (0..random.between(0, 12))
                .map(|_| generate_job(1000 * seed + random.between(0, 4) as u64))
                .collect();
            let ends: Vec<usize> = texts
                .iter()
                .scan(0, |end, text| {
                    *end += text.len();
                    Some(*end)
                })
                .collect();
            let line = of_buffer(&texts.concat(), &ends).unwrap();
            let figures: Vec<i128> = line
                .trim_end()
                .split('\t')
                .map(|figure| figure.parse().unwrap())
                .collect();
            assert_eq!(figures.len(), 12);
            assert_eq!(figures[0], texts.len() as i128);
            assert_eq!(figures[1..8].iter().sum::<i128>(), figures[0]);
            let mut turns = 0;
            let mut best = None;
            for (place, text) in (1i128..).zip(&texts) {
                let report = String::from_utf8(report_of(text)).unwrap();
                let mut lines = report
                    .lines()
                    .map(|line| line.split('\t').collect::<Vec<_>>());
                let first = lines.next().unwrap();
                if first[0] == "X" {
                    continue;
                }
                turns += first[5].parse::<i128>().unwrap();
                let mut axes: Vec<(i128, i128)> = lines
                    .map(|axis| (axis[1].parse().unwrap(), axis[3].parse().unwrap()))
                    .collect();
                axes.sort();
                for (axis, error) in axes {
                    if best.is_none_or(|(largest, _, _)| error > largest) {
                        best = Some((error, place, axis));
                    }
                }
            }
            assert_eq!(figures[8], turns);
            let (largest, first, axis) = best.unwrap_or((0, 0, 0));
            assert_eq!(figures[9..], [largest, first, axis]);
        }
    }

    #[test]
    fn ends_are_judged_before_their_number() {
        let of = |texts: &[u8], ends: &[usize]| {
            of_buffer(texts, ends).map(|line| line.replace('\t', " "))
        };
        assert_eq!(of(b"", &[]), Ok("0 0 0 0 0 0 0 0 0 0 0 0\n".to_string()));
        assert_eq!(
            of(b"abc", &[0, 3, 3]),
            Ok("3 0 0 0 3 0 0 0 0 0 0 0\n".to_string())
        );
        assert_eq!(of(b"abc", &[4]), Err(2));
        assert_eq!(of(b"abc", &[2, 1]), Err(2));
        assert_eq!(of(b"abc", &[2, usize::MAX]), Err(2));
        assert!(of(b"", &[0; 10_000])
            .unwrap()
            .starts_with("10000 0 0 0 10000 "));
        assert_eq!(of(b"", &[0; 10_001]), Err(16));
        let mut ends = vec![0; 10_001];
        ends[10_000] = 1;
        assert_eq!(of(b"", &ends), Err(2));
    }
}
