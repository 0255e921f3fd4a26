//! The command line: what is to be done, with which options.

use crate::failure::Failure;
use crate::samples::Columns;
use std::ffi::OsString;

/// What `field-axes --help` prints.
pub const HELP: &str = include_str!("help.txt");

/// The longest field's name and date that a sheet has room for.
const LONGEST_FIELD: usize = 80;
const LONGEST_DATE: usize = 40;

/// The most sweeps, and the largest tolerance, that the library takes.
const MOST_SWEEPS: u64 = 16;
const MOST_TOLERANCE: u64 = 1_048_576;

pub enum Task {
    Help,
    Report(OsString),
    Table(OsString),
    Pool(OsString, OsString),
    Season(Vec<OsString>),
    Panels(i64),
}

/// What is printed of a report.
#[derive(Clone, Copy, PartialEq, Eq)]
pub enum Print {
    Words,
    Raw,
    Job,
}

pub struct Options {
    pub print: Print,
    pub limit: u64,
    pub tolerance: u64,
    pub svg: Option<OsString>,
    pub html: Option<OsString>,
    pub field: Option<String>,
    pub date: Option<String>,
    pub columns: Columns,
}

const OF_COLUMNS: [&str; 2] = ["--channels", "--labels"];
const OF_A_REPORT: [&str; 8] = [
    "--raw",
    "--job",
    "--limit",
    "--tolerance",
    "--svg",
    "--html",
    "--field",
    "--date",
];

/// The task and the options of a command line, without the command's own name.
pub fn read(words: impl Iterator<Item = OsString>) -> Result<(Task, Options), Failure> {
    let mut line = Line::default();
    line.read(words)?;
    if line.help {
        return Ok((Task::Help, line.options));
    }
    if line.options.svg.is_some() && line.options.svg == line.options.html {
        return Err(usage("--svg and --html name the same file"));
    }
    let mut operands = std::mem::take(&mut line.operands).into_iter();
    let Some(name) = operands.next() else {
        return Err(usage("a subcommand is missing"));
    };
    let operands: Vec<OsString> = operands.collect();
    let task = match name.to_str() {
        Some("report") => {
            line.allows("report", &[&OF_A_REPORT[..], &OF_COLUMNS[..]])?;
            Task::Report(one("report", "a CSV file", operands)?)
        }
        Some("table") => {
            line.allows("table", &[&["--raw"], &OF_COLUMNS[..]])?;
            Task::Table(one("table", "a CSV file", operands)?)
        }
        Some("pool") => {
            line.allows("pool", &[&OF_A_REPORT[..], &OF_COLUMNS[..]])?;
            let (first, other) = two("pool", "two CSV files", operands)?;
            if first == "-" && other == "-" {
                return Err(usage("standard input can be read once"));
            }
            Task::Pool(first, other)
        }
        Some("season") => {
            line.allows("season", &[&["--raw"]])?;
            if operands.is_empty() {
                return Err(usage("season takes files of job texts"));
            }
            Task::Season(operands)
        }
        Some("panels") => {
            line.allows("panels", &[&["--raw"]])?;
            let size = one("panels", "a size from 0 to 8", operands)?;
            let size = size.to_str().and_then(|size| size.parse().ok());
            Task::Panels(size.ok_or_else(|| usage("panels takes a whole number, 0 to 8"))?)
        }
        _ => {
            return Err(usage(&format!(
                "`{}` is no subcommand",
                name.to_string_lossy()
            )))
        }
    };
    Ok((task, line.options))
}

fn usage(why: &str) -> Failure {
    Failure::Usage(why.to_string())
}

/// The one operand of a subcommand.
fn one(name: &str, what: &str, operands: Vec<OsString>) -> Result<OsString, Failure> {
    let number = operands.len();
    let mut operands = operands.into_iter();
    match (operands.next(), operands.next()) {
        (Some(operand), None) => Ok(operand),
        _ => Err(usage(&format!(
            "{name} takes {what}, and {number} were given"
        ))),
    }
}

/// The two operands of a subcommand.
fn two(name: &str, what: &str, operands: Vec<OsString>) -> Result<(OsString, OsString), Failure> {
    let number = operands.len();
    let operands: Result<[OsString; 2], _> = operands.try_into();
    match operands {
        Ok([first, other]) => Ok((first, other)),
        Err(_) => Err(usage(&format!(
            "{name} takes {what}, and {number} were given"
        ))),
    }
}

/// A command line as it is read.
struct Line {
    help: bool,
    operands: Vec<OsString>,
    options: Options,
    /// The names of the options that were given.
    given: Vec<String>,
}

impl Default for Line {
    fn default() -> Line {
        Line {
            help: false,
            operands: Vec::new(),
            options: Options {
                print: Print::Words,
                limit: MOST_SWEEPS,
                tolerance: 0,
                svg: None,
                html: None,
                field: None,
                date: None,
                columns: Columns::default(),
            },
            given: Vec::new(),
        }
    }
}

impl Line {
    fn read(&mut self, mut words: impl Iterator<Item = OsString>) -> Result<(), Failure> {
        while let Some(word) = words.next() {
            match word.to_str() {
                Some("--") => {
                    self.operands.extend(words);
                    return Ok(());
                }
                Some("--help" | "-h") => self.help = true,
                Some(text) if text.starts_with("--") => {
                    let (name, value) = match text.split_once('=') {
                        Some((name, value)) => (name, Some(OsString::from(value))),
                        None => (text, None),
                    };
                    self.option(name, value, &mut words)?;
                }
                Some(text) if is_short_option(text) => {
                    return Err(usage(&format!("there is no option `{text}`")));
                }
                _ => self.operands.push(word),
            }
        }
        Ok(())
    }

    fn option(
        &mut self,
        name: &str,
        value: Option<OsString>,
        words: &mut impl Iterator<Item = OsString>,
    ) -> Result<(), Failure> {
        if self.given.iter().any(|given| given == name) {
            return Err(usage(&format!("{name} is given twice")));
        }
        self.given.push(name.to_string());
        if name == "--raw" || name == "--job" {
            if value.is_some() {
                return Err(usage(&format!("{name} takes no value")));
            }
            if self.options.print != Print::Words {
                return Err(usage("--raw and --job can't be had together"));
            }
            self.options.print = if name == "--raw" {
                Print::Raw
            } else {
                Print::Job
            };
            return Ok(());
        }
        if !OF_A_REPORT.contains(&name) && !OF_COLUMNS.contains(&name) {
            return Err(usage(&format!("there is no option `{name}`")));
        }
        let value = value.or_else(|| words.next());
        let value = value.ok_or_else(|| usage(&format!("{name} takes a value")))?;
        self.set(name, value)
    }

    fn set(&mut self, name: &str, value: OsString) -> Result<(), Failure> {
        let options = &mut self.options;
        match name {
            "--svg" => options.svg = Some(file(name, value)?),
            "--html" => options.html = Some(file(name, value)?),
            "--limit" => options.limit = number(name, &text(name, value)?, 1, MOST_SWEEPS)?,
            "--tolerance" => {
                options.tolerance = number(name, &text(name, value)?, 0, MOST_TOLERANCE)?
            }
            "--field" => options.field = Some(short(name, text(name, value)?, LONGEST_FIELD)?),
            "--date" => options.date = Some(short(name, text(name, value)?, LONGEST_DATE)?),
            "--channels" => options.columns.channels = Some(names(name, &text(name, value)?)?),
            _ => options.columns.labels = names(name, &text(name, value)?)?,
        }
        Ok(())
    }

    /// Refuses an option that the subcommand doesn't have.
    fn allows(&self, name: &str, options: &[&[&str]]) -> Result<(), Failure> {
        let has = |given: &str| options.iter().any(|group| group.contains(&given));
        match self.given.iter().find(|given| !has(given)) {
            None => Ok(()),
            Some(given) => Err(usage(&format!("{name} has no option {given}"))),
        }
    }
}

/// A word such as `-x`; `-` is standard input, and `-1` a number.
fn is_short_option(text: &str) -> bool {
    let rest = text.strip_prefix('-').unwrap_or("");
    !rest.is_empty() && !rest.bytes().all(|byte| byte.is_ascii_digit())
}

fn file(name: &str, value: OsString) -> Result<OsString, Failure> {
    if value.is_empty() || value == "-" {
        return Err(usage(&format!("{name} takes the name of a file to write")));
    }
    Ok(value)
}

fn text(name: &str, value: OsString) -> Result<String, Failure> {
    let value = value.into_string();
    value.map_err(|_| usage(&format!("the value of {name} is not UTF-8")))
}

fn number(name: &str, value: &str, least: u64, most: u64) -> Result<u64, Failure> {
    let digits = !value.is_empty() && value.bytes().all(|byte| byte.is_ascii_digit());
    match value.parse() {
        Ok(number) if digits && (least..=most).contains(&number) => Ok(number),
        _ => Err(usage(&format!(
            "{name} takes a whole number from {least} to {most}, and not `{value}`"
        ))),
    }
}

fn short(name: &str, value: String, most: usize) -> Result<String, Failure> {
    if value.chars().count() > most || value.chars().any(char::is_control) {
        return Err(usage(&format!(
            "{name} takes one line of at most {most} characters"
        )));
    }
    Ok(value)
}

fn names(name: &str, value: &str) -> Result<Vec<String>, Failure> {
    let names: Vec<String> = value
        .split(',')
        .map(|name| name.trim().to_string())
        .collect();
    if names.iter().any(String::is_empty) {
        return Err(usage(&format!(
            "{name} takes names of columns, parted by commas"
        )));
    }
    Ok(names)
}
