//! Document 02, W1: samples handed over as n, a dilution each, and n counts each, sample after sample; and the writer of job text.

use crate::job::Job;
use crate::record::{Number, TOLERANCE_LIMIT};
use crate::scatter::Sample;

/// The samples. "Values out of range get 2, counts that aren't n to a sample get 6 (here and wherever samples are handed over), fewer than 2
/// or more than 256 samples get 3, .. tried in that order."
pub fn samples(n: i128, dilutions: &[i128], counts: &[i128]) -> Result<Vec<Sample>, Number> {
    let in_range = (2..=8).contains(&n)
        && dilutions
            .iter()
            .all(|dilution| (1..=100).contains(dilution))
        && counts.iter().all(|count| (0..=65_535).contains(count));
    if !in_range {
        return Err(2);
    }
    if counts.len() as i128 != n * dilutions.len() as i128 {
        return Err(6);
    }
    if !(2..=256).contains(&dilutions.len()) {
        return Err(3);
    }
    Ok(dilutions
        .iter()
        .zip(counts.chunks(n as usize))
        .map(|(&dilution, counts)| Sample {
            dilution,
            counts: counts.to_vec(),
        })
        .collect())
}

/// The job of n, the sweep limit, the tolerance and the samples. A limit or a tolerance out of its range is refused 2 too.
pub fn job(
    n: i128,
    limit: i128,
    tolerance: i128,
    dilutions: &[i128],
    counts: &[i128],
) -> Result<Job, Number> {
    if !(1..=16).contains(&limit) || !(0..=TOLERANCE_LIMIT).contains(&tolerance) {
        return Err(2);
    }
    Ok(Job {
        samples: samples(n, dilutions, counts)?,
        n: n as usize,
        sweep_limit: limit,
        tolerance,
    })
}

#[cfg(test)]
mod tests {
    use crate::examples::{longest, tabs, PRINTED};
    use crate::{generate_job, job, job_text};

    fn refused(n: i128, limit: i128, tolerance: i128, k: usize, counts: &[i128]) -> u32 {
        job_text(n, limit, tolerance, &vec![1; k], counts).unwrap_err()
    }

    #[test]
    fn the_printed_example_is_written() {
        let text = job_text(2, 1, 0, &[1, 5, 1], &[0, 0, 1, 0, 5, 5]);
        assert_eq!(text, Ok(tabs(PRINTED)));
    }

    #[test]
    fn values_at_the_ends_of_their_ranges_are_written_and_beyond_refused_2() {
        let judged = |n: i128, limit, tolerance, dilution, count| {
            let mut counts = vec![0; 2 * n as usize];
            counts[1] = count;
            job_text(n, limit, tolerance, &[1, dilution], &counts)
        };
        for (range, values) in [
            ("n", [1, 2, 8, 9]),
            ("limit", [0, 1, 16, 17]),
            ("tolerance", [-1, 0, 1_048_576, 1_048_577]),
            ("dilution", [0, 1, 100, 101]),
            ("count", [-1, 0, 65_535, 65_536]),
        ] {
            let refused = values.map(|value| {
                let or = |name: &str, good| if range == name { value } else { good };
                judged(
                    or("n", 3),
                    or("limit", 5),
                    or("tolerance", 7),
                    or("dilution", 2),
                    or("count", 4),
                )
                .err()
            });
            assert_eq!(refused, [Some(2), None, None, Some(2)], "{range}");
        }
        assert_eq!(job_text(-1, 1, 0, &[1; 2], &[]), Err(2));
    }

    #[test]
    fn refusals_come_in_the_order_2_6_3() {
        for k in [0, 1, 257, 300] {
            assert_eq!(refused(2, 1, 0, k, &vec![0; 2 * k]), 3, "k = {k}");
            assert_eq!(refused(2, 1, 0, k, &vec![0; 2 * k + 1]), 6, "k = {k}");
            assert_eq!(refused(2, 1, 0, k, &vec![65_536; 2 * k + 1]), 2, "k = {k}");
            assert_eq!(refused(2, 0, 0, k, &vec![0; 2 * k + 1]), 2, "k = {k}");
            assert_eq!(refused(2, 1, 1_048_577, k, &vec![0; 2 * k]), 2, "k = {k}");
        }
        // 4 channels' counts for 2 samples are no counts of 2 channels for 4: each sample has n.
        assert_eq!(refused(2, 1, 0, 2, &[0; 8]), 6);
        assert_eq!(refused(4, 1, 0, 2, &[0; 7]), 6);
        // The last count that is there is judged, though it is one too many.
        assert_eq!(refused(2, 1, 0, 2, &[0, 0, 0, 0, 65_536]), 2);
    }

    /// "Reading that text yields those same values, and writing what was read from an accepted text yields that text."
    #[test]
    fn reading_and_writing_are_each_other_s_inverse() {
        let mut read = 0;
        for seed in 0..2000 {
            let text = generate_job(seed);
            let Ok(job) = job::read(&text) else { continue };
            read += 1;
            let (dilutions, counts) = job.handed_over();
            let written = job_text(
                job.n as i128,
                job.sweep_limit,
                job.tolerance,
                &dilutions,
                &counts,
            );
            assert_eq!(written, Ok(text));
            assert_eq!(job::read(&written.unwrap()), Ok(job));
        }
        assert!(read > 900, "{read}");
    }

    /// No number of a job has more digits than the longest text's, and none has more samples or channels.
    #[test]
    fn the_longest_text_is_within_what_axes_reads() {
        let text = job_text(8, 16, 1_048_576, &[100; 256], &[65_535; 8 * 256]).unwrap();
        assert_eq!((text.len(), longest().len()), (13_845, 13_845));
        assert!(text.len() <= job::TEXT_LIMIT);
    }
}
