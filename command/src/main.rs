//! `field-axes`: from a spreadsheet to the certified axes of a field, over the proved static library. What is proved and what is not says `--help`.

mod arguments;
mod csv;
mod failure;
mod findings;
mod fraction;
mod input;
mod markup;
mod picture;
mod pool;
mod print;
mod progress;
mod samples;
mod season;
mod sheet;

use arguments::{Options, Print, Task};
use failure::Failure;
use findings::Findings;
use samples::Samples;
use std::ffi::{OsStr, OsString};
use std::io::{self, Write};
use std::process::ExitCode;

fn main() -> ExitCode {
    match run(std::env::args_os().skip(1)) {
        Ok(()) => ExitCode::SUCCESS,
        Err(failure) => {
            if !failure.is_silent() {
                // Where this can't be written either, the status says it.
                let _ = writeln!(io::stderr(), "field-axes: {failure}");
            }
            ExitCode::from(failure.status())
        }
    }
}

fn run(words: impl Iterator<Item = OsString>) -> Result<(), Failure> {
    let (task, options) = arguments::read(words)?;
    let text = match task {
        Task::Help => arguments::HELP.to_string(),
        Task::Report(file) => report(&file, &options)?,
        Task::Table(file) => table(&file, &options)?,
        Task::Pool(first, other) => pool(&first, &other, &options)?,
        Task::Season(files) => season(&files, &options)?,
        Task::Panels(size) => panels(size, &options)?,
    };
    let mut out = io::stdout().lock();
    out.write_all(text.as_bytes())
        .and_then(|()| out.flush())
        .map_err(|error| Failure::Output("standard output".to_string(), error))
}

fn report(file: &OsStr, options: &Options) -> Result<String, Failure> {
    let samples = input::samples(file, &options.columns)?;
    let job = samples
        .job(options.limit, options.tolerance)
        .map_err(|bad| input::refused(file, &bad))?;
    let raw = field_axes::report(job.as_bytes())
        .map_err(|refused| Failure::Refused(refused.to_string()))?;
    let source = print::source(&input::name(file), &samples);
    delivered(&[file], options, &samples, job, raw, source)
}

fn pool(first: &OsStr, other: &OsStr, options: &Options) -> Result<String, Failure> {
    let mut samples = Vec::new();
    for file in [first, other] {
        samples.push(input::samples(file, &options.columns)?);
    }
    let (limit, tolerance) = (options.limit, options.tolerance);
    let pooled = pool::pooled(&samples[0], &samples[1], limit, tolerance)
        .map_err(|(job, bad)| input::refused([first, other][job], &bad))?;
    let sources = [first, other].into_iter().zip(&samples);
    let sources = sources.map(|(file, samples)| print::source(&input::name(file), samples));
    let source = sources.collect::<String>();
    let job = pooled
        .samples
        .job(limit, tolerance)
        .map_err(|bad| input::refused(other, &bad))?;
    let files = [first, other];
    delivered(&files, options, &pooled.samples, job, pooled.report, source)
}

/// Writes the picture and the sheet, and gives what is to be printed. The files are those that the samples were read from.
fn delivered(
    files: &[&OsStr],
    options: &Options,
    samples: &Samples,
    job: String,
    raw: String,
    source: String,
) -> Result<String, Failure> {
    let table = samples
        .table()
        .map_err(|bad| input::refused(files[0], &bad))?;
    let findings = Findings::new(samples.channels.clone(), raw, &table)
        .ok_or_else(|| Failure::Refused("the library's report can't be read".to_string()))?;
    let names: Vec<String> = files.iter().map(|file| input::field(file)).collect();
    let field = options.field.clone();
    let field = field.unwrap_or_else(|| names.join(" and "));
    for path in [&options.svg, &options.html].into_iter().flatten() {
        if files.iter().any(|file| input::is_same(file, path)) {
            let why = "is what the samples are read from; it is not written over";
            return Err(Failure::Usage(format!("{}: {why}", input::name(path))));
        }
    }
    if let Some(path) = &options.svg {
        write(path, &picture::svg(&field, &findings))?;
    }
    if let Some(path) = &options.html {
        write(
            path,
            &sheet::html(&field, options.date.as_deref(), &findings),
        )?;
    }
    Ok(match options.print {
        Print::Words => source + &print::axes(&findings),
        Print::Raw => findings.raw,
        Print::Job => job,
    })
}

fn table(file: &OsStr, options: &Options) -> Result<String, Failure> {
    let samples = input::samples(file, &options.columns)?;
    let table = samples.table().map_err(|bad| input::refused(file, &bad))?;
    Ok(match options.print {
        Print::Raw => print::raw_table(&samples, &table),
        _ => print::source(&input::name(file), &samples) + &print::table(&samples, &table),
    })
}

fn season(files: &[OsString], options: &Options) -> Result<String, Failure> {
    let line = season::line(files)?;
    Ok(match options.print {
        Print::Raw => line,
        _ => season::in_words(&line, files)
            .ok_or_else(|| Failure::Refused("the library's line can't be read".to_string()))?,
    })
}

fn panels(size: i64, options: &Options) -> Result<String, Failure> {
    let lines = field_axes::panels(size)
        .map_err(|refused| Failure::Refused(format!("{refused}: a size is 0 to 8")))?;
    Ok(match options.print {
        Print::Raw => lines,
        _ => print::panels(&lines),
    })
}

fn write(path: &OsStr, text: &str) -> Result<(), Failure> {
    std::fs::write(path, text).map_err(|error| Failure::Output(input::name(path), error))
}
