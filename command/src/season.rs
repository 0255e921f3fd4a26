//! The season report: the figures of many job texts, from the proved library's one line.

use crate::failure::Failure;
use crate::input;
use crate::progress::Progress;
use field_axes::Refused;
use std::ffi::OsString;
use std::fmt::Write;

/// The most jobs of a season; the library refuses more, and they are not read.
const MOST_JOBS: usize = 10_000;

/// The line of twelve numbers of these files.
pub fn line(files: &[OsString]) -> Result<String, Failure> {
    let progress = Progress::new(files.len());
    let mut texts = Vec::new();
    for (done, file) in files.iter().take(MOST_JOBS).enumerate() {
        progress.at(done);
        texts.push(input::job_text(file).inspect_err(|_| progress.end())?);
    }
    progress.end();
    // The library refuses what is too many by its number, whatever it is.
    texts.resize(files.len(), Vec::new());
    let texts: Vec<&[u8]> = texts.iter().map(Vec::as_slice).collect();
    field_axes::season(&texts).map_err(|refused| {
        let file = files.get(MOST_JOBS).filter(|_| refused == Refused(16));
        let place = file.map_or_else(String::new, |file| format!("{}: ", input::name(file)));
        Failure::Refused(format!("{place}{refused}"))
    })
}

/// The line's numbers, each with what it is.
pub fn in_words(line: &str, files: &[OsString]) -> Option<String> {
    let numbers = line.trim_end().split('\t').map(|field| field.parse().ok());
    let numbers: Vec<u64> = numbers.collect::<Option<_>>()?;
    let [jobs, settled, still, spent, first, second, third, fourth, turns, error, job, axis] =
        numbers[..]
    else {
        return None;
    };
    let mut text = String::new();
    let _ = writeln!(text, "{jobs:>8} jobs");
    for (number, outcome) in [(settled, "settled"), (still, "still"), (spent, "spent")] {
        let _ = writeln!(text, "{number:>8} {outcome}");
    }
    for (number, refusal) in [first, second, third, fourth].into_iter().zip(1..) {
        let _ = writeln!(text, "{number:>8} {}", Refused(refusal));
    }
    let _ = writeln!(text, "{turns:>8} turns in all");
    if job == 0 {
        text.push_str("No job was accepted, so there is no largest error.\n");
        return Some(text);
    }
    let file = files.get(usize::try_from(job).ok()?.checked_sub(1)?)?;
    let _ = writeln!(
        text,
        "The largest error is {error} units of 1/1024: job {job}, {}, axis {axis}.",
        input::name(file)
    );
    Some(text)
}
