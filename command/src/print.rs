//! Findings, tables and panels in words.

use crate::findings::Findings;
use crate::fraction::{decimal, Fraction};
use crate::samples::Samples;
use field_axes::Table;
use std::fmt::Write;

/// The decimals of a covariance.
const COVARIANCE_DECIMALS: u32 = 2;

/// What is said below every report.
const PROMISE: &str = "\
The error is a bound and no estimate: theorem Certificate, docs/CERTIFICATE.md. It is of these readings, not of how they were taken.
The numbers are the proved library's; reading the CSV and printing are not proved.
";

/// The first lines: what was read.
pub fn source(name: &str, samples: &Samples) -> String {
    let (k, n) = (samples.number(), samples.channels.len());
    let mut text = format!(
        "{name}: {k} samples, {n} channels: {}\n",
        samples.channels.join(", ")
    );
    if !samples.labels.is_empty() {
        let _ = writeln!(text, "labels: {}", samples.labels.join(", "));
    }
    text
}

/// The axes, strongest first.
pub fn axes(findings: &Findings) -> String {
    let head = ["axis", "variance", "error", "share"].map(String::from);
    let head = head.into_iter().chain(findings.channels.iter().cloned());
    let mut rows = vec![head.collect::<Vec<String>>()];
    for axis in &findings.axes {
        let figures = [
            axis.number.to_string(),
            axis.variance.clone(),
            axis.error.clone(),
            axis.share.clone(),
        ];
        rows.push(
            figures
                .into_iter()
                .chain(axis.direction.iter().cloned())
                .collect(),
        );
    }
    let mut lines = aligned(&rows).into_iter();
    let mut text = String::new();
    let _ = writeln!(text, "\n{}", lines.next().unwrap_or_default());
    for (axis, line) in findings.axes.iter().zip(lines) {
        let remark = if axis.determined {
            ""
        } else {
            "  not determined"
        };
        let _ = writeln!(text, "{line}{remark}");
    }
    let report = &findings.report;
    let _ = writeln!(
        text,
        "\nThe channels' variances together: {}.",
        findings.whole
    );
    for sentence in findings.close_in_words() {
        let _ = writeln!(text, "{sentence}");
    }
    let _ = writeln!(
        text,
        "{} sweeps, {} turns, shift {}; ended {}.",
        report.sweeps,
        report.turns,
        report.shift,
        findings.ending()
    );
    text + PROMISE
}

/// The exact sums and the covariances.
pub fn table(samples: &Samples, table: &Table) -> String {
    let (n, k) = (samples.channels.len(), samples.number() as i128);
    let covariance = |sum: i64| {
        let fraction = Fraction {
            numerator: i128::from(sum),
            denominator: k * (k - 1),
        };
        decimal(fraction.nearest(COVARIANCE_DECIMALS), COVARIANCE_DECIMALS)
    };
    let mut text = String::new();
    let blocks: [(&str, &dyn Fn(i64) -> String); 2] = [
        ("Exact sums S", &|sum: i64| sum.to_string()),
        ("Covariances, S / (k × (k − 1))", &covariance),
    ];
    for (title, shown) in blocks {
        let head = std::iter::once(String::new()).chain(samples.channels.iter().cloned());
        let mut rows = vec![head.collect::<Vec<String>>()];
        for (name, sums) in samples.channels.iter().zip(table.sums.chunks(n)) {
            let numbers = sums.iter().map(|&sum| shown(sum));
            rows.push(std::iter::once(name.clone()).chain(numbers).collect());
        }
        let _ = writeln!(text, "\n{title}:\n{}", aligned(&rows).join("\n"));
    }
    let _ = writeln!(text, "\nThe solver works on S / 2^{}.", table.e);
    text
}

/// The lines that the program `table` prints of these samples.
pub fn raw_table(samples: &Samples, table: &Table) -> String {
    let (n, k) = (samples.channels.len(), samples.number());
    let mut text = format!("T\t{n}\t{k}\t{}\n", table.e);
    for (i, sums) in (1..).zip(table.sums.chunks(n)) {
        let sums: Vec<String> = sums.iter().map(|sum| sum.to_string()).collect();
        let _ = writeln!(text, "S\t{i}\t{}", sums.join("\t"));
    }
    text
}

/// Panels with a head above them.
pub fn panels(lines: &str) -> String {
    let head = ["a_11", "a_12", "a_22", "sweeps", "turns", "outcome"];
    let mut rows = vec![head.map(String::from).to_vec()];
    rows.extend(
        lines
            .lines()
            .map(|line| line.split('\t').map(String::from).collect()),
    );
    aligned(&rows).join("\n") + "\n"
}

/// Rows of equal length as lines, their columns aligned to the right.
fn aligned(rows: &[Vec<String>]) -> Vec<String> {
    let columns = rows.first().map_or(0, Vec::len);
    let width = |at: usize| {
        rows.iter()
            .map(|row| row[at].chars().count())
            .max()
            .unwrap_or(0)
    };
    let widths: Vec<usize> = (0..columns).map(width).collect();
    let line = |row: &Vec<String>| {
        let fields = row
            .iter()
            .zip(&widths)
            .map(|(field, &width)| format!("{field:>width$}"));
        fields.collect::<Vec<String>>().join("  ")
    };
    rows.iter().map(line).collect()
}
