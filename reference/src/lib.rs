//! The reference implementation of Field Axes as a library: what the proved programs and functions must answer.

pub mod calls;
pub mod check;
pub mod choice;
pub mod examples;
pub mod files;
pub mod generate;
pub mod job;
pub mod jobs;
pub mod matrix;
pub mod orders;
pub mod pairs;
pub mod panels;
pub mod pool;
mod random;
pub mod readings;
pub mod record;
pub mod report;
pub mod rounding;
mod samples;
pub mod scatter;
pub mod scatter_vectors;
pub mod season;
mod text;
pub mod thresholds;
pub mod turn;
pub mod turn_vectors;

#[cfg(test)]
mod bench_cards;
#[cfg(test)]
mod certificate;
#[cfg(test)]
mod whole;

pub use record::{Axis, Number};
pub use report::{Outcome, Run};

/// What `axes` prints for a job text: the report, or the `X` line of its refusal.
pub fn report_of(job: &[u8]) -> Vec<u8> {
    report::axes_program(job).into_bytes()
}

/// What `table` prints for a job text: the table of its sums, or the `X` line of its refusal.
pub fn table_of(job: &[u8]) -> Vec<u8> {
    report::table_program(job).into_bytes()
}

/// Job text from n, the sweep limit, the tolerance and samples: a dilution each, and n counts each, sample after sample. Refused 2, 6 or 3.
pub fn job_text(
    n: i128,
    limit: i128,
    tolerance: i128,
    dilutions: &[i128],
    counts: &[i128],
) -> Result<Vec<u8>, u32> {
    readings::job(n, limit, tolerance, dilutions, counts)
        .map(|job| job.text().into_bytes())
        .map_err(|number| number as u32)
}

/// The answers to a text of calls, played on one fresh record.
pub fn calls_of(text: &[u8]) -> Vec<u8> {
    calls::play(text).into_bytes()
}

/// The report of two jobs pooled, or the number of the refusal: 13, 2, 6 or 3.
pub fn pooled_report(first: &pool::Given, second: &pool::Given) -> Result<Vec<u8>, u32> {
    pool::pooled(first, second)
        .map(|job| report::report(&job).into_bytes())
        .map_err(|number| number as u32)
}

/// A job text, good or damaged, the same for the same seed.
pub fn generate_job(seed: u64) -> Vec<u8> {
    generate::job_text(seed)
}

/// A text of calls, good or damaged, the same for the same seed.
pub fn generate_calls(seed: u64) -> Vec<u8> {
    generate::calls_text(seed)
}

/// The run on a matrix of n×n numbers, row after row: outcome, sweeps run, m, and for each axis, in channel order, a_ii, r_i and the row of
/// v. Where one of the run's calls is refused, the number of that refusal; the limit itself is not judged.
pub fn solve(n: i128, numbers: &[i128], limit: i128, tolerance: i128) -> Result<Run, Number> {
    report::run(n, numbers, limit, tolerance)
}
