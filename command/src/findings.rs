//! What was found of a field: the proved report, and its numbers as a laboratory reads them.

use crate::fraction::{decimal, Fraction};
use field_axes::Table;

/// The most decimals that are printed of a variance.
const MOST_DECIMALS: u32 = 6;

/// The decimals of a direction's numbers.
const DIRECTION_DECIMALS: u32 = 4;

/// The lines of a report, read.
pub struct Report {
    pub samples: i128,
    pub shift: u32,
    pub sweeps: u64,
    pub turns: u64,
    pub outcome: String,
    /// Strongest first, as the report has them.
    pub axes: Vec<Axis>,
}

/// A line `A`: the axis's number, its figure and error in units, and its direction.
pub struct Axis {
    pub number: usize,
    pub entry: i128,
    pub error: i128,
    pub direction: Vec<i128>,
}

impl Report {
    /// The numbers of a report's text.
    pub fn read(text: &str) -> Option<Report> {
        let mut lines = text.lines();
        let head: Vec<&str> = lines.next()?.split('\t').collect();
        let ["R", _, samples, shift, sweeps, turns, outcome] = head[..] else {
            return None;
        };
        Some(Report {
            samples: samples.parse().ok()?,
            shift: shift.parse().ok()?,
            sweeps: sweeps.parse().ok()?,
            turns: turns.parse().ok()?,
            outcome: outcome.to_string(),
            axes: lines.map(Axis::read).collect::<Option<_>>()?,
        })
    }

    /// Units of 1/1024 of an entry of S / 2^e, as a variance: × 2^e / (1024 × k × (k − 1)).
    fn variance(&self, units: i128) -> Fraction {
        let k = self.samples;
        Fraction {
            numerator: units << self.shift,
            denominator: 1024 * k * (k - 1),
        }
    }
}

impl Axis {
    fn read(line: &str) -> Option<Axis> {
        let fields: Vec<&str> = line.split('\t').collect();
        let ["A", number, entry, error, ref direction @ ..] = fields[..] else {
            return None;
        };
        Some(Axis {
            number: number.parse().ok()?,
            entry: entry.parse().ok()?,
            error: error.parse().ok()?,
            direction: direction
                .iter()
                .map(|number| number.parse().ok())
                .collect::<Option<_>>()?,
        })
    }

    /// An error as large as the figure leaves it open whether the samples vary along the axis at all. A figure without any error is exact.
    fn is_determined(&self) -> bool {
        self.error == 0 || self.error < self.entry
    }
}

/// An axis as it is printed.
pub struct Shown {
    pub number: usize,
    pub variance: String,
    /// Rounded up, so that it covers what the printed variance is rounded by.
    pub error: String,
    pub share: String,
    pub determined: bool,
    /// The numbers of the direction, each beside its channel's.
    pub direction: Vec<String>,
    /// For the picture: variance, error and direction.
    pub place: (f64, f64, Vec<f64>),
}

pub struct Findings {
    pub channels: Vec<String>,
    pub report: Report,
    /// The report's text, as the proved library wrote it.
    pub raw: String,
    /// The sum of the channels' variances.
    pub whole: String,
    pub axes: Vec<Shown>,
}

impl Findings {
    /// Of a report's text and the table of the same samples.
    pub fn new(channels: Vec<String>, raw: String, table: &Table) -> Option<Findings> {
        let report = Report::read(&raw)?;
        let n = channels.len();
        let trace: i128 = (0..n).map(|i| i128::from(table.sums[i * n + i])).sum();
        let decimals = decimals(&report);
        let axes = report
            .axes
            .iter()
            .map(|axis| shown(&report, axis, decimals, trace));
        let axes = axes.collect();
        let whole = Fraction {
            numerator: trace,
            denominator: report.samples * (report.samples - 1),
        };
        Some(Findings {
            channels,
            whole: decimal(whole.nearest(decimals), decimals),
            axes,
            raw,
            report,
        })
    }

    /// The numbers of axes that follow each other no further apart than their errors together: their directions can't be told apart.
    pub fn close(&self) -> Vec<Vec<usize>> {
        let near = |a: &Axis, b: &Axis| a.entry - b.entry <= a.error + b.error;
        let groups = self.report.axes.chunk_by(near);
        groups
            .filter(|group| group.len() > 1)
            .map(|group| group.iter().map(|axis| axis.number).collect())
            .collect()
    }

    /// The same in words, a sentence each.
    pub fn close_in_words(&self) -> Vec<String> {
        let groups = self.close().into_iter();
        groups
            .filter_map(|group| {
                let names: Vec<String> = group.iter().map(usize::to_string).collect();
                let (last, first) = names.split_last()?;
                let names = format!("{} and {last}", first.join(", "));
                Some(format!(
                    "Axes {names} are no further apart than their errors: their directions can't be told apart."
                ))
            })
            .collect()
    }

    /// How the run ended, in words.
    pub fn ending(&self) -> &'static str {
        match self.report.outcome.as_str() {
            "settled" => "settled: no two axes vary together by more than the tolerance",
            "still" => "still: no pair of axes is far enough off to be turned, so more sweeps change nothing",
            _ => "spent: the sweep limit was reached; a greater --limit, 16 at most, may bring the errors down",
        }
    }
}

/// As many decimals as give the least error three digits.
fn decimals(report: &Report) -> u32 {
    let least = report
        .axes
        .iter()
        .map(|axis| axis.error)
        .filter(|&error| error > 0)
        .min();
    let least = report.variance(least.unwrap_or(0));
    (0..MOST_DECIMALS)
        .find(|&decimals| least.nearest(decimals) >= 100)
        .unwrap_or(if least.numerator == 0 {
            2
        } else {
            MOST_DECIMALS
        })
}

fn shown(report: &Report, axis: &Axis, decimals: u32, trace: i128) -> Shown {
    let variance = report.variance(axis.entry);
    let error = report.variance(axis.error);
    let direction = axis.direction.iter().map(|&number| Fraction {
        numerator: number,
        denominator: 1 << 30,
    });
    let direction: Vec<Fraction> = direction.collect();
    Shown {
        number: axis.number,
        variance: decimal(variance.nearest(decimals), decimals),
        error: decimal(error.above(decimals, variance), decimals),
        share: share(report, axis, trace),
        determined: axis.is_determined(),
        direction: direction
            .iter()
            .map(|number| decimal(number.nearest(DIRECTION_DECIMALS), DIRECTION_DECIMALS))
            .collect(),
        place: (
            variance.to_f64(),
            error.to_f64(),
            direction.iter().map(|number| number.to_f64()).collect(),
        ),
    }
}

/// How much of the channels' variances together lies along the axis, in a hundred.
fn share(report: &Report, axis: &Axis, trace: i128) -> String {
    if trace == 0 {
        return "-".to_string();
    }
    let share = Fraction {
        numerator: 100 * (axis.entry << report.shift),
        denominator: 1024 * trace,
    };
    format!("{} %", decimal(share.nearest(1), 1))
}
