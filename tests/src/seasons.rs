//! Seasons of job texts, and their line.

use crate::random::Random;
use field_axes::{season, season_into, Refused, MOST_SEASON_BYTES};
use reference::season::{season_line, taken, Taken, MOST_JOBS};
use std::sync::OnceLock;

/// How many job texts the seasons are of, so that one comes again in many of them.
const TEXTS: u64 = 2_000;

struct Texts {
    texts: Vec<Vec<u8>>,
    taken: Vec<Taken>,
}

/// The job texts, and what the reference has of each, computed once.
fn texts() -> &'static Texts {
    static ALL: OnceLock<Texts> = OnceLock::new();
    ALL.get_or_init(|| {
        let texts: Vec<Vec<u8>> = (0..TEXTS).map(reference::generate_job).collect();
        let taken = texts.iter().map(|text| taken(text)).collect();
        Texts { texts, taken }
    })
}

/// Compares one call; the answer is what kind it came to.
pub fn case(seed: u64) -> Result<String, String> {
    let random = &mut Random::new(seed);
    let all = texts();
    let any = random.between(0, 40);
    let count = match random.between(0, 9) {
        0 => random.pick(&[0, 1]),
        1 => any,
        _ => random.between(0, 8),
    };
    // Of few texts, so that jobs tie.
    let few = random.pick(&[3, 10, TEXTS as i64]);
    let jobs: Vec<usize> = (0..count)
        .map(|_| random.between(0, few - 1) as usize)
        .collect();
    let own: Vec<&[u8]> = jobs.iter().map(|&job| &all.texts[job][..]).collect();
    let mut buffer = own.concat();
    let mut ends: Vec<usize> = own
        .iter()
        .scan(0, |end, text| {
            *end += text.len();
            Some(*end)
        })
        .collect();
    let of_jobs: Vec<Taken> = jobs.iter().map(|&job| all.taken[job].clone()).collect();
    let mut line = Ok(season_line(&of_jobs));
    // The function that joins the texts and makes a buffer of its own.
    let printed = season(&own);
    if printed != line {
        return Err(format!(
            "season {jobs:?}: {printed:?}, and the reference has {line:?}"
        ));
    }
    // Bytes after the last end are no job's.
    let after = random.pick(&[0, 0, 5]);
    buffer.extend(random.bytes(after));
    if random.one_in(5) {
        line = damaged(random, &mut ends, buffer.len(), line);
    }
    let size = match random.between(0, 5) {
        0 => line.as_ref().map_or(12, String::len),
        1 => line.as_ref().map_or(12, String::len) - 1,
        2 => random.between(0, MOST_SEASON_BYTES as i64) as usize,
        _ => MOST_SEASON_BYTES,
    };
    let entry = random.bytes(size);
    let mut out = entry.clone();
    let got = season_into(&buffer, &ends, &mut out);
    let mut expected = entry;
    let wanted = line.and_then(|line| {
        let front = expected.get_mut(..line.len()).ok_or(Refused(12))?;
        front.copy_from_slice(line.as_bytes());
        Ok(line.len())
    });
    if got != wanted || out != expected {
        return Err(format!(
            "season {jobs:?}, {} ends, size {size}: {got:?} {:?}, and the reference has {wanted:?} {:?}",
            ends.len(),
            String::from_utf8_lossy(&out),
            String::from_utf8_lossy(&expected)
        ));
    }
    let accepted = of_jobs.iter().any(Result::is_ok);
    Ok(match got {
        Ok(_) if accepted => "line of a season".to_string(),
        Ok(_) => "line of a season without an accepted job".to_string(),
        Err(Refused(number)) => format!("refused {number}"),
    })
}

/// An end below the one before it or beyond the buffer; as many ends as may be, or more, of jobs without text.
fn damaged(
    random: &mut Random,
    ends: &mut Vec<usize>,
    length: usize,
    line: Result<String, Refused>,
) -> Result<String, Refused> {
    match random.between(0, 2) {
        0 if ends.len() > 1 && ends[0] > 0 => {
            let place = random.between(1, ends.len() as i64 - 1) as usize;
            ends[place] = random.pick(&[0, ends[place - 1] - 1, ends[0] - 1]);
            Err(Refused(2))
        }
        1 if !ends.is_empty() => {
            *random.place(ends) = random.pick(&[length + 1, usize::MAX, 1 << 63]);
            Err(Refused(2))
        }
        _ if random.one_in(20) => {
            let count = MOST_JOBS + random.pick(&[0, 1, 2]);
            *ends = vec![0; count];
            if random.one_in(3) {
                ends[count - 1] = length + 1;
                return Err(Refused(2));
            }
            if count > MOST_JOBS {
                return Err(Refused(16));
            }
            Ok(season_line(&vec![taken(b""); count]))
        }
        _ => line,
    }
}
