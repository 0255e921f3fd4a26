//! Two jobs pooled, and the report of the joined text.

use crate::random::Random;
use crate::samples::Samples;
use field_axes::{job, pool, pool_into, report, Job, Refused, MOST_REPORT_BYTES};
use reference::pool::Given;

/// What is handed over of one job.
#[derive(Debug)]
struct HandedOver {
    samples: Samples,
    limit: u64,
    tolerance: u64,
}

impl HandedOver {
    fn good(random: &mut Random) -> HandedOver {
        let any_tolerance = random.sized(1_048_576) as u64;
        HandedOver {
            samples: Samples::good(random),
            limit: random.pick(&[1, 2, 9, 16]),
            tolerance: random.pick(&[0, 1_048_576, any_tolerance]),
        }
    }

    fn damage(&mut self, random: &mut Random) {
        match random.between(0, 7) {
            0 => self.limit = random.pick(&[0, 17, 1 << 32, u64::MAX]),
            1 => self.tolerance = random.pick(&[1_048_577, 1 << 32, u64::MAX]),
            _ => self.samples.damage(random),
        }
    }

    /// The same samples on n channels, and at most k of them.
    fn fit(&mut self, n: usize, k: usize) {
        let Samples {
            n: own,
            dilutions,
            counts,
        } = &mut self.samples;
        dilutions.truncate(k);
        let one = |sample: &[u32]| sample.iter().copied().cycle().take(n).collect::<Vec<_>>();
        *counts = counts.chunks(*own).take(k).flat_map(one).collect();
        *own = n;
    }

    fn job(&self) -> Job<'_> {
        let Samples {
            n,
            dilutions,
            counts,
        } = &self.samples;
        Job {
            n: *n,
            limit: self.limit,
            tolerance: self.tolerance,
            dilutions,
            counts,
        }
    }
}

/// Compares one call; the answer is what kind it came to.
pub fn case(seed: u64) -> Result<String, String> {
    let random = &mut Random::new(seed);
    let [mut first, mut second] = [(); 2].map(|_| HandedOver::good(random));
    let n = first.samples.n;
    if !random.one_in(10) {
        let held = first.samples.dilutions.len();
        // Mostly few enough together; else 256, 257, or as they come.
        let k = match random.between(0, 4) {
            0 => 256,
            1 => 257usize.saturating_sub(held).max(2),
            _ => 256usize.saturating_sub(held).max(2),
        };
        second.fit(n, k);
    }
    for _ in 0..random.pick(&[0, 0, 0, 1, 2]) {
        if random.one_in(2) {
            first.damage(random);
        } else {
            second.damage(random);
        }
    }
    let text = by_reference(&first, &second);
    // The function that makes a buffer of its own.
    let own = pool(&first.job(), &second.job()).map(String::into_bytes);
    if own != text {
        return Err(format!(
            "{first:?} and {second:?}: {own:?}, and the reference has {text:?}"
        ));
    }
    if let Ok(text) = &text {
        joined(&first, &second, text)?;
    }
    // Buffers that the report fits, that it fills, and that are too short for it, also by one byte.
    let length = text.as_ref().map_or(MOST_REPORT_BYTES, Vec::len);
    let size = match random.between(0, 7) {
        0 => length,
        1 => length - 1,
        2 => random.between(0, length as i64) as usize,
        3 => 0,
        _ => length + 8,
    };
    let entry = random.bytes(size);
    let mut out = entry.clone();
    let got = pool_into(&first.job(), &second.job(), &mut out);
    let mut expected = entry;
    let wanted = text.and_then(|text| {
        let front = expected.get_mut(..text.len()).ok_or(Refused(12))?;
        front.copy_from_slice(&text);
        Ok(text.len())
    });
    if got != wanted || out != expected {
        return Err(format!(
            "{first:?} and {second:?}, size {size}: {got:?}, and the reference has {wanted:?}; the buffers are {}",
            if out == expected { "equal" } else { "unequal" }
        ));
    }
    Ok(match got {
        Ok(_) => "pooled".to_string(),
        Err(Refused(number)) => format!("refused {number}"),
    })
}

fn by_reference(first: &HandedOver, second: &HandedOver) -> Result<Vec<u8>, Refused> {
    let wide = [first.samples.wide(), second.samples.wide()];
    let [first, second] = [(first, &wide[0]), (second, &wide[1])].map(|(job, wide)| Given {
        n: job.samples.n as i128,
        limit: job.limit.into(),
        tolerance: job.tolerance.into(),
        dilutions: &wide.0,
        counts: &wide.1,
    });
    reference::pooled_report(&first, &second).map_err(Refused)
}

/// "The pooled table and report are those of a job with the first one's S lines followed by the second one's, and its sweep limit and tolerance are
/// the first one's": the library's own report of that job's text.
fn joined(first: &HandedOver, second: &HandedOver, pooled: &[u8]) -> Result<(), String> {
    let dilutions = [&first.samples.dilutions[..], &second.samples.dilutions].concat();
    let counts = [&first.samples.counts[..], &second.samples.counts].concat();
    let text = job(
        first.samples.n,
        first.limit,
        first.tolerance,
        &dilutions,
        &counts,
    );
    let own = text.map(|text| report(text.as_bytes()).map(String::into_bytes));
    if own != Ok(Ok(pooled.to_vec())) {
        return Err(format!(
            "{first:?} and {second:?}: the joined text has {own:?}"
        ));
    }
    Ok(())
}
