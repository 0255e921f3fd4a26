//! Job text written from samples, and read again.

use crate::random::Random;
use crate::samples::Samples;
use field_axes::{job, job_into, report, Refused, MOST_JOB_BYTES};
use reference::job::read;

/// What is handed over.
#[derive(Debug)]
struct Given {
    samples: Samples,
    limit: u64,
    tolerance: u64,
}

/// The longest job text there is: the buffer that Rust makes holds it, and no text is longer.
pub fn longest() -> Result<(), String> {
    let (dilutions, counts) = ([100; 256], [65_535; 2048]);
    let text = job(8, 16, 1_048_576, &dilutions, &counts).map(String::into_bytes);
    let given = Given {
        samples: Samples {
            n: 8,
            dilutions: dilutions.to_vec(),
            counts: counts.to_vec(),
        },
        limit: 16,
        tolerance: 1_048_576,
    };
    let length = text.as_ref().map_or(0, Vec::len);
    if text != by_reference(&given) || length != MOST_JOB_BYTES {
        return Err(format!(
            "the longest job text has {length} bytes here, and the buffer {MOST_JOB_BYTES}"
        ));
    }
    Ok(())
}

/// Compares one call; the answer is what kind it came to.
pub fn case(seed: u64) -> Result<String, String> {
    let random = &mut Random::new(seed);
    if random.one_in(4) {
        rewritten(&reference::generate_job(seed))?;
    }
    let given = given(random);
    let Given {
        samples: Samples {
            n,
            dilutions,
            counts,
        },
        limit,
        tolerance,
    } = &given;
    let text = by_reference(&given);
    // The function that makes a buffer of its own.
    let own = job(*n, *limit, *tolerance, dilutions, counts).map(String::into_bytes);
    if own != text {
        return Err(format!(
            "{given:?}: {own:?}, and the reference has {text:?}"
        ));
    }
    if let Ok(text) = &text {
        reread(&given, text)?;
    }
    // Buffers that the text fits, that it fills, and that are too short for it, also by one byte.
    let length = text.as_ref().map_or(MOST_JOB_BYTES, Vec::len);
    let size = match random.between(0, 7) {
        0 | 1 => length,
        2 | 3 => length - 1,
        4 => random.between(0, length as i64) as usize,
        5 => 0,
        _ => length + 8,
    };
    let entry = random.bytes(size);
    let mut out = entry.clone();
    let got = job_into(*n, *limit, *tolerance, dilutions, counts, &mut out);
    let mut expected = entry;
    let wanted = text.and_then(|text| {
        let front = expected.get_mut(..text.len()).ok_or(Refused(12))?;
        front.copy_from_slice(&text);
        Ok(text.len())
    });
    if got != wanted || out != expected {
        return Err(format!(
            "{given:?}, size {size}: {got:?} {:?}, and the reference has {wanted:?} {:?}",
            String::from_utf8_lossy(&out),
            String::from_utf8_lossy(&expected)
        ));
    }
    Ok(match got {
        Ok(_) if size == length => "written, and the buffer filled".to_string(),
        Ok(_) => "written".to_string(),
        Err(Refused(12)) if size + 1 == length => "refused 12 for one byte".to_string(),
        Err(Refused(number)) => format!("refused {number}"),
    })
}

fn given(random: &mut Random) -> Given {
    let any_limit = random.between(1, 16) as u64;
    let any_tolerance = random.sized(1_048_576) as u64;
    let mut given = Given {
        samples: Samples::good(random),
        limit: random.pick(&[1, 9, 10, 16, any_limit]),
        tolerance: random.pick(&[0, 1_048_576, any_tolerance, any_tolerance]),
    };
    if random.one_in(3) {
        for _ in 0..random.between(1, 2) {
            match random.between(0, 7) {
                0 => given.limit = random.pick(&[0, 17, 1 << 32, u64::MAX]),
                1 => given.tolerance = random.pick(&[1_048_577, 1 << 32, u64::MAX]),
                _ => given.samples.damage(random),
            }
        }
    }
    given
}

fn by_reference(given: &Given) -> Result<Vec<u8>, Refused> {
    let (dilutions, counts) = given.samples.wide();
    reference::job_text(
        given.samples.n as i128,
        given.limit.into(),
        given.tolerance.into(),
        &dilutions,
        &counts,
    )
    .map_err(Refused)
}

/// "Reading that text yields those same values": by the reference's reader; and the library's report judges it as the reference does.
fn reread(given: &Given, text: &[u8]) -> Result<(), String> {
    let job = read(text).map_err(|refusal| format!("{given:?}: read as {refusal:?}"))?;
    let (dilutions, counts) = given.samples.wide();
    let numbers = |of: fn(&reference::scatter::Sample) -> Vec<i128>| -> Vec<i128> {
        job.samples.iter().flat_map(of).collect()
    };
    let same = job.n == given.samples.n
        && job.sweep_limit == given.limit.into()
        && job.tolerance == given.tolerance.into()
        && numbers(|sample| vec![sample.dilution]) == dilutions
        && numbers(|sample| sample.counts.clone()) == counts;
    if !same {
        return Err(format!("{given:?}: read as {job:?}"));
    }
    let own = report(text).map(String::into_bytes);
    if own != Ok(reference::report_of(text)) {
        return Err(format!("{given:?}: reported as {own:?}"));
    }
    Ok(())
}

/// "writing what was read from an accepted text yields that text"
fn rewritten(text: &[u8]) -> Result<(), String> {
    let Ok(read) = read(text) else {
        return Ok(());
    };
    let narrow = |number: i128| u32::try_from(number).expect("a number of a job");
    let samples = read.samples.iter();
    let dilutions: Vec<u32> = samples
        .clone()
        .map(|sample| narrow(sample.dilution))
        .collect();
    let counts: Vec<u32> = samples
        .flat_map(|sample| sample.counts.iter().copied().map(narrow))
        .collect();
    let (limit, tolerance) = (read.sweep_limit as u64, read.tolerance as u64);
    let again = job(read.n, limit, tolerance, &dilutions, &counts).map(String::into_bytes);
    if again.as_deref() != Ok(text) {
        let shown = String::from_utf8_lossy(text);
        return Err(format!("job {shown:?}: written again as {again:?}"));
    }
    Ok(())
}
