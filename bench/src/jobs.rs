//! Whole jobs, from text to report.

use crate::measure::{least, Sequence};
use crate::plain;
use std::hint::black_box;

/// Job texts of k samples of n channels, limit 16 and tolerance 0; the last line of the refused ones has a wrong number. They are many, so
/// that a processor does not learn the branches by heart.
fn jobs(n: usize, k: usize, refused: bool) -> Vec<Vec<u8>> {
    let mut sequence = Sequence(0x10b + n as u64);
    (0..(4096 / k).clamp(16, 64))
        .map(|_| {
            let mut text = format!("P\t{n}\t16\t0\n");
            for _ in 0..k {
                text += &format!("S\t{}", sequence.next() % 100 + 1);
                for _ in 0..n {
                    text += &format!("\t{}", sequence.next() % 65_536);
                }
                text += "\n";
            }
            text += &format!("E\t{}\n", k + usize::from(refused));
            text.into_bytes()
        })
        .collect()
}

type Report = fn(&[u8], &mut [u8]) -> Result<usize, (u32, usize)>;

fn proved_report(text: &[u8], out: &mut [u8]) -> Result<usize, (u32, usize)> {
    field_axes::report_into(text, out).map_err(|refused| (refused.number, refused.line))
}

/// The times of a job, proved and plain.
fn reports(texts: &[Vec<u8>]) -> [f64; 2] {
    const REPORTS: [Report; 2] = [proved_report, plain::job::report];
    for text in texts {
        let outs = REPORTS.map(|report| {
            let mut out = [0; field_axes::MOST_REPORT_BYTES];
            (report(text, &mut out), out)
        });
        assert_eq!(outs[0], outs[1]);
    }
    let all = |report: Report| {
        move || {
            let mut out = [0; field_axes::MOST_REPORT_BYTES];
            for text in texts {
                let _ = black_box(report(black_box(text), &mut out));
            }
        }
    };
    let [mut first, mut second] = REPORTS.map(all);
    least([&mut first, &mut second]).map(|time| time / texts.len() as f64)
}

/// Prints the figures; gives the ratio of whole jobs, proved to plain, by n and k.
pub fn measure() -> Vec<((usize, usize), f64)> {
    println!("whole jobs from text to report, ns; then the same jobs refused at their last line: the reader alone");
    println!("n    k   proved    plain  ratio    proved    plain  ratio");
    let mut ratios = Vec::new();
    for n in [2, 4, 8] {
        for k in [2, 16, 64, 256] {
            let [proved, plain] = reports(&jobs(n, k, false));
            let [refused, other] = reports(&jobs(n, k, true));
            println!(
                "{n} {k:4} {proved:8.0} {plain:8.0} {:6.2}  {refused:8.0} {other:8.0} {:6.2}",
                proved / plain,
                refused / other
            );
            ratios.push(((n, k), proved / plain));
        }
    }
    ratios
}
