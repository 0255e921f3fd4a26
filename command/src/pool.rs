//! Two fields pooled: one set of axes for both. Their channels are matched by name.

use crate::csv::Bad;
use crate::samples::Samples;
use field_axes::{Job, Refused};

pub struct Pooled {
    /// The first field's samples, then the other one's.
    pub samples: Samples,
    /// The proved library's report of both.
    pub report: String,
}

/// What is refused is of the first field, 0, or of the other one, 1.
pub fn pooled(
    first: &Samples,
    other: &Samples,
    limit: u64,
    tolerance: u64,
) -> Result<Pooled, (usize, Bad)> {
    let matched = other.with_channels_as(first);
    let judged = matched.as_ref().unwrap_or(other);
    let report = field_axes::pool(
        &handed_over(first, limit, tolerance),
        &handed_over(judged, limit, tolerance),
    );
    let report = report.map_err(|refused| explained(first, judged, refused, limit, tolerance))?;
    // As many channels, but others.
    let matched = matched.ok_or_else(|| (1, other_channels(first, other, "other channels")))?;
    let samples = first.followed_by(&matched);
    Ok(Pooled { samples, report })
}

fn handed_over(samples: &Samples, limit: u64, tolerance: u64) -> Job<'_> {
    Job {
        n: samples.channels.len(),
        limit,
        tolerance,
        dilutions: &samples.dilutions,
        counts: &samples.counts,
    }
}

/// The field and the line that the library refused. It judges the first field before the other one, and then both together.
fn explained(
    first: &Samples,
    other: &Samples,
    refused: Refused,
    limit: u64,
    tolerance: u64,
) -> (usize, Bad) {
    if refused == Refused(13) {
        return (1, other_channels(first, other, &refused.to_string()));
    }
    if let Err(bad) = first.job(limit, tolerance) {
        return (0, bad);
    }
    if let Err(bad) = other.job(limit, tolerance) {
        return (1, bad);
    }
    let together = first.number() + other.number();
    let why = format!("{together} samples together; there must be at most 256");
    (1, other.last(&why))
}

fn other_channels(first: &Samples, other: &Samples, why: &str) -> Bad {
    let (here, there) = (other.channels.join(", "), first.channels.join(", "));
    other.header(&format!("{why}: {here}, where the first has {there}"))
}
