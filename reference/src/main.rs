//! The reference implementation of Field Axes: its commands.

use reference::{
    calls, check, generate, job, jobs, orders, panels, report, scatter_vectors, turn_vectors,
};
use std::env;
use std::ffi::OsString;
use std::io::{self, Read, Write};
use std::os::unix::ffi::OsStrExt;
use std::path::Path;
use std::process::ExitCode;

const USAGE: &str = "\
reference axes | calls | table | panels B
reference generate job SEED | generate calls SEED
reference jobs | jobs names | vectors turns | vectors scatter | vectors jobs
reference check DIR | store DIR | orders";

fn main() -> ExitCode {
    let arguments: Vec<OsString> = env::args_os().skip(1).collect();
    match output(&arguments) {
        Some((bytes, ok)) => match io::stdout().write_all(&bytes) {
            Ok(()) if ok => ExitCode::SUCCESS,
            _ => ExitCode::FAILURE,
        },
        None => {
            eprintln!("{USAGE}");
            ExitCode::from(2)
        }
    }
}

/// What a command writes, and whether it ends well; none for words that are no command.
fn output(arguments: &[OsString]) -> Option<(Vec<u8>, bool)> {
    // What a program is given may be of any bytes; no other word is.
    let words: Vec<&str> = arguments
        .iter()
        .map(|word| word.to_str().unwrap_or(""))
        .collect();
    let after = arguments.get(1..).unwrap_or(&[]);
    let after: Vec<&[u8]> = after.iter().map(|word| word.as_bytes()).collect();
    let bytes = match words[..] {
        ["axes"] => report::axes_program(&input(job::TEXT_LIMIT)?).into_bytes(),
        ["calls"] => calls::play(&input(calls::TEXT_LIMIT + 1)?).into_bytes(),
        ["table"] => report::table_program(&input(job::TEXT_LIMIT)?).into_bytes(),
        ["panels", ..] => panels::program(&after).into_bytes(),
        ["generate", "job", seed] => generate::job_text(seed.parse().ok()?),
        ["generate", "calls", seed] => generate::calls_text(seed.parse().ok()?),
        ["jobs"] => jobs::container(),
        ["jobs", "names"] => jobs::names().into_bytes(),
        ["vectors", "turns"] => turn_vectors::turns().into_bytes(),
        ["vectors", "scatter"] => scatter_vectors::scatter().into_bytes(),
        ["vectors", "jobs"] => jobs::outputs(),
        ["orders"] => orders::figures().into_bytes(),
        ["check", root] => {
            let (text, same) = check::check(Path::new(root));
            return Some((text.into_bytes(), same));
        }
        ["store", root] => {
            return Some((Vec::new(), check::store(Path::new(root)).is_ok()));
        }
        _ => return None,
    };
    Some((bytes, true))
}

/// At most the first `limit` bytes of standard input.
fn input(limit: usize) -> Option<Vec<u8>> {
    let mut bytes = Vec::new();
    io::stdin()
        .take(limit as u64)
        .read_to_end(&mut bytes)
        .ok()?;
    Some(bytes)
}
