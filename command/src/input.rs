//! Files and standard input, up to a size.

use crate::csv::{self, Bad};
use crate::failure::Failure;
use crate::samples::{Columns, Samples};
use std::ffi::OsStr;
use std::fs::File;
use std::io::{self, Read};
use std::path::Path;

/// More than any spreadsheet of 256 samples has.
const MOST_BYTES: u64 = 4 << 20;

/// What the programs read of a job text; the longest that is accepted is shorter.
const JOB_BYTES: u64 = 16_384;

/// The samples of a CSV file, or of standard input where its name is `-`.
pub fn samples(file: &OsStr, columns: &Columns) -> Result<Samples, Failure> {
    let bytes = bytes(file)?;
    csv::rows(&bytes)
        .and_then(|rows| Samples::read(&rows, columns))
        .map_err(|bad| refused(file, &bad))
}

/// The first bytes of a job text, as many as the program `season` reads.
pub fn job_text(file: &OsStr) -> Result<Vec<u8>, Failure> {
    up_to(JOB_BYTES, file)
}

fn bytes(file: &OsStr) -> Result<Vec<u8>, Failure> {
    let bytes = up_to(MOST_BYTES + 1, file)?;
    if bytes.len() as u64 > MOST_BYTES {
        let why = format!("{}: has more than {MOST_BYTES} bytes", name(file));
        return Err(Failure::Refused(why));
    }
    Ok(bytes)
}

/// At most so many bytes of a file, or of standard input.
fn up_to(most: u64, file: &OsStr) -> Result<Vec<u8>, Failure> {
    let mut bytes = Vec::new();
    let read = if file == "-" {
        io::stdin().lock().take(most).read_to_end(&mut bytes)
    } else {
        File::open(file).and_then(|file| file.take(most).read_to_end(&mut bytes))
    };
    match read {
        Ok(_) => Ok(bytes),
        Err(error) => Err(Failure::Refused(format!(
            "{}: can't be read: {error}",
            name(file)
        ))),
    }
}

/// What is wrong with a file, with its line.
pub fn refused(file: &OsStr, bad: &Bad) -> Failure {
    Failure::Refused(format!("{}: line {}: {}", name(file), bad.line, bad.why))
}

/// A file's name as it is printed.
pub fn name(file: &OsStr) -> String {
    if file == "-" {
        return "standard input".to_string();
    }
    file.to_string_lossy().into_owned()
}

/// A field's name where none is given: the file's, without folder and ending.
pub fn field(file: &OsStr) -> String {
    let stem = Path::new(file).file_stem().filter(|_| file != "-");
    stem.map_or_else(|| name(file), |stem| stem.to_string_lossy().into_owned())
}

/// Whether two names are of one file that is there.
pub fn is_same(file: &OsStr, other: &OsStr) -> bool {
    let (file, other) = (Path::new(file), Path::new(other));
    matches!((file.canonicalize(), other.canonicalize()), (Ok(one), Ok(two)) if one == two)
}
