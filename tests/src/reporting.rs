//! A job text and its report.

use crate::random::Random;
use field_axes::{report, report_into, JobRefused, MOST_REPORT_BYTES};
use reference::report::{self as by, Denied};

/// Compares one call; the answer is what kind it came to.
pub fn case(seed: u64) -> Result<String, String> {
    let random = &mut Random::new(seed);
    let text = reference::generate_job(seed);
    let entry = random.bytes(MOST_REPORT_BYTES + 8);
    let mut expected = entry.clone();
    let whole = by_reference(&text, &mut expected);
    // The function that makes a buffer of its own.
    let own = report(&text);
    let printed = whole.map(|length| String::from_utf8_lossy(&expected[..length]).into_owned());
    if own != printed {
        return Err(format!(
            "job {:?}: {own:?}, and the reference has {printed:?}",
            String::from_utf8_lossy(&text)
        ));
    }
    // Buffers that the report fits, that it fills, and that are too short for it.
    let length = whole.unwrap_or(MOST_REPORT_BYTES);
    let size = match random.between(0, 7) {
        0 => length,
        1 => length - 1,
        2 => random.between(0, length as i64) as usize,
        3 => 0,
        _ => entry.len(),
    };
    let mut out = entry[..size].to_vec();
    let got = report_into(&text, &mut out);
    let mut expected = entry[..size].to_vec();
    let wanted = by_reference(&text, &mut expected);
    if got != wanted || out != expected {
        return Err(format!(
            "job {:?}, size {size}: {got:?} {:?}, and the reference has {wanted:?} {:?}",
            String::from_utf8_lossy(&text),
            String::from_utf8_lossy(&out),
            String::from_utf8_lossy(&expected)
        ));
    }
    Ok(match got {
        Ok(_) => "reported".to_string(),
        Err(JobRefused { number, .. }) => format!("refused {number}"),
    })
}

fn by_reference(text: &[u8], out: &mut [u8]) -> Result<usize, JobRefused> {
    by::report_into(text, out).map_err(|denied| match denied {
        Denied::Job(refusal) => JobRefused {
            number: refusal.number as u32,
            line: refusal.line as usize,
        },
        Denied::Buffer => JobRefused {
            number: 12,
            line: 0,
        },
    })
}
