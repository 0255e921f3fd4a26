//! The built command, run in the folder of the examples on a text that comes through standard input.

use std::io::Write;
use std::process::{Command, Stdio};

pub const EXAMPLES: &str = concat!(env!("CARGO_MANIFEST_DIR"), "/../examples");

pub struct Ended {
    /// None where a signal ended it.
    pub status: Option<i32>,
    pub printed: String,
    pub complained: String,
}

pub fn run(words: &[&str], input: &[u8]) -> Ended {
    let mut child = Command::new(env!("CARGO_BIN_EXE_field-axes"))
        .args(words)
        .current_dir(EXAMPLES)
        .stdin(Stdio::piped())
        .stdout(Stdio::piped())
        .stderr(Stdio::piped())
        .spawn()
        .expect("the command starts");
    let mut stdin = child.stdin.take().expect("a pipe");
    // A command that reads nothing may have ended.
    let _ = stdin.write_all(input);
    drop(stdin);
    let output = child.wait_with_output().expect("the command ends");
    Ended {
        status: output.status.code(),
        printed: String::from_utf8(output.stdout).expect("UTF-8"),
        complained: String::from_utf8(output.stderr).expect("UTF-8"),
    }
}

/// A good text of eight samples.
pub const GOOD: &str = "\
sample,dilution,nitrate,phosphate,potassium
A1,5,812,231,1187
A2,5,764,220,1241
A3,5,938,266,1093
A4,10,521,146,512
A5,10,487,139,557
A6,5,694,199,1305
A7,2,1542,430,3387
A8,1,2773,842,6421
";
