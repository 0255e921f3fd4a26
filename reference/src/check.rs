//! The stored files of the repository that follow from document 01 or from a rule: computed anew, and compared or written.

use crate::examples::{
    files as example_files, longest, longest_calls, tabs, CALLS, JOBS, PANELS, POOLS, PRINTED,
    SEASONS,
};
use crate::{
    calls_of, job, jobs, panels, pool, report_of, scatter_vectors, season, table_of, turn_vectors,
};
use std::path::Path;
use std::{fs, io};

/// A file, by its path from the repository's root, and its bytes.
struct Stored {
    path: String,
    bytes: Vec<u8>,
}

fn stored(path: impl ToString, bytes: Vec<u8>) -> Stored {
    Stored {
        path: path.to_string(),
        bytes,
    }
}

/// Every stored file; another is another line here.
fn all() -> Vec<Stored> {
    let mut files = vec![
        stored("crates/axes/stdin", longest()),
        stored("crates/axes/stdout", report_of(&longest())),
        stored("crates/table/stdin", longest()),
        stored("crates/table/stdout", table_of(&longest())),
        stored("crates/calls/stdin", longest_calls()),
        stored("crates/calls/stdout", calls_of(&longest_calls())),
        stored("crates/panels/args", b"8\n".to_vec()),
        stored("crates/panels/stdout", panels::program(&["8"]).into_bytes()),
        stored(
            "crates/test_turns/stdout",
            turn_vectors::turns().into_bytes(),
        ),
        stored(
            "crates/test_tables/stdout",
            scatter_vectors::scatter().into_bytes(),
        ),
        stored("crates/test_jobs/data/jobs", jobs::container()),
        stored("crates/test_jobs/stdout", jobs::outputs()),
    ];
    let second = tabs("P 2 16 5\nS 2 1 3\nS 1 0 4\nE 2\n");
    files.extend([
        stored("crates/pool/args", b"first\nsecond\n".to_vec()),
        stored(
            "crates/pool/stdout",
            pool::answer(&tabs(PRINTED), &second).into_bytes(),
        ),
        stored("crates/pool/data/first", tabs(PRINTED)),
        stored("crates/pool/data/second", second),
    ]);
    files.extend(season_run());
    for example in JOBS {
        let text = (example.text)();
        let named =
            |ending: &str, bytes| stored(format!("examples/{}.{ending}", example.name), bytes);
        match job::read(&text) {
            Ok(_) => files.extend([
                named("report", report_of(&text)),
                named("table", table_of(&text)),
            ]),
            Err(_) => files.push(named("refused", report_of(&text))),
        }
        files.push(named("job", text));
    }
    for example in CALLS {
        let text = (example.text)();
        let named =
            |ending: &str, bytes| stored(format!("examples/{}.{ending}", example.name), bytes);
        files.extend([named("answers", calls_of(&text)), named("calls", text)]);
    }
    for run in PANELS {
        let printed = panels::program(&(run.arguments)()).into_bytes();
        let named = |ending: &str, bytes| stored(format!("examples/{}.{ending}", run.name), bytes);
        files.extend([named("listed", printed), named("panels", run.lines())]);
    }
    for run in POOLS {
        let printed = pool::program(&(run.arguments)(), example_files).into_bytes();
        let named = |ending: &str, bytes| stored(format!("examples/{}.{ending}", run.name), bytes);
        files.extend([named("pooled", printed), named("pool", run.lines())]);
    }
    for run in SEASONS {
        let printed = season::program(&(run.arguments)(), example_files).into_bytes();
        let named = |ending: &str, bytes| stored(format!("examples/{}.{ending}", run.name), bytes);
        files.extend([named("line", printed), named("season", run.lines())]);
    }
    files
}

/// The stored run of `season`: each outcome and each refusal, by copies of example jobs.
fn season_run() -> Vec<Stored> {
    const NAMES: [&str; 9] = [
        "settled",
        "malformed",
        "still",
        "small",
        "out_of_range",
        "one_sample",
        "tied_errors",
        "wrong_number",
        "small",
    ];
    let text = |name: &str| {
        let example = JOBS.iter().find(|example| example.name == name);
        (example.expect("an example").text)()
    };
    let taken: Vec<season::Taken> = NAMES.map(|name| season::taken(&text(name))).into();
    let names: String = NAMES.map(|name| format!("{name}.job\n")).concat();
    let mut files = vec![
        stored("crates/season/args", names.into_bytes()),
        stored(
            "crates/season/stdout",
            season::season_line(&taken).into_bytes(),
        ),
    ];
    // The last one is there already.
    for name in &NAMES[..8] {
        files.push(stored(format!("crates/season/data/{name}.job"), text(name)));
    }
    files
}

/// Writes every stored file.
pub fn store(root: &Path) -> io::Result<()> {
    all()
        .iter()
        .try_for_each(|file| fs::write(root.join(&file.path), &file.bytes))
}

/// What differs, a line each, then how many files were compared; and whether nothing differs.
pub fn check(root: &Path) -> (String, bool) {
    let files = all();
    let mut text = String::new();
    let mut failed = 0;
    let mut fail = |path: &str, why: String| {
        failed += 1;
        text += &format!("{path}: FAILED, {why}\n");
    };
    for file in &files {
        if let Err(why) = compare(root, file) {
            fail(&file.path, why);
        }
    }
    for path in in_examples(root) {
        if !files.iter().any(|file| file.path == path) {
            fail(&path, "not computed here".to_string());
        }
    }
    text += &format!("{} stored files compared, {failed} failed\n", files.len());
    (text, failed == 0)
}

/// The files of examples/, but for the page that describes them.
fn in_examples(root: &Path) -> Vec<String> {
    fs::read_dir(root.join("examples"))
        .into_iter()
        .flatten()
        .flatten()
        .map(|entry| format!("examples/{}", entry.file_name().to_string_lossy()))
        .filter(|path| path != "examples/README.md")
        .collect()
}

/// Why a file is not as computed.
fn compare(root: &Path, file: &Stored) -> Result<(), String> {
    let found = fs::read(root.join(&file.path)).map_err(|error| error.to_string())?;
    if found == file.bytes {
        return Ok(());
    }
    let alike = found
        .iter()
        .zip(&file.bytes)
        .take_while(|(found, computed)| found == computed)
        .count();
    let line = 1 + found[..alike].iter().filter(|&&byte| byte == b'\n').count();
    Err(format!(
        "byte {alike} (from 0), line {line}: computed {:?}, stored {:?}",
        line_from(&file.bytes, line),
        line_from(&found, line)
    ))
}

fn line_from(text: &[u8], line: usize) -> String {
    String::from_utf8_lossy(
        text.split(|&byte| byte == b'\n')
            .nth(line - 1)
            .unwrap_or(b""),
    )
    .into_owned()
}
