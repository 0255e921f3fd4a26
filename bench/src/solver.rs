//! The solver.

use crate::measure::{least, Sequence};
use crate::plain;
use std::hint::black_box;

fn matrices(n: usize) -> Vec<Vec<i64>> {
    let mut sequence = Sequence(0x5eed + n as u64);
    (0..2048 / (n * n))
        .map(|_| {
            let mut numbers = vec![0; n * n];
            for i in 0..n {
                for j in i..n {
                    let number = sequence.spread(2_097_152);
                    numbers[i * n + j] = number;
                    numbers[j * n + i] = number;
                }
            }
            numbers
        })
        .collect()
}

type Solve = fn(usize, &[i64], u64, u64, &mut [i64]) -> usize;

fn proved(n: usize, numbers: &[i64], limit: u64, tolerance: u64, out: &mut [i64]) -> usize {
    field_axes::solve_into(n, numbers, limit, tolerance, out).expect("a good matrix")
}

/// The times of all runs with a limit by each solver, and how many sweeps these are. Many matrices one after the other: on one alone,
/// again and again, a processor learns the branches by heart.
fn runs(n: usize, limit: u64) -> ([f64; 3], f64) {
    const SOLVERS: [Solve; 3] = [proved, plain::solve::<false>, plain::solve::<true>];
    let inputs = matrices(n);
    let mut sweeps = 0;
    for numbers in &inputs {
        let outs = SOLVERS.map(|solve| {
            let mut out = [0; field_axes::MOST_NUMBERS];
            solve(n, numbers, limit, 0, &mut out);
            out
        });
        assert!(outs.iter().all(|out| *out == outs[0]));
        sweeps += outs[0][1];
    }
    let all = |solve: Solve| {
        let inputs = &inputs;
        move || {
            let mut out = [0; field_axes::MOST_NUMBERS];
            for numbers in inputs {
                black_box(solve(n, black_box(numbers), limit, 0, &mut out));
            }
        }
    };
    let [mut first, mut second, mut third] = SOLVERS.map(all);
    (least([&mut first, &mut second, &mut third]), sweeps as f64)
}

/// The proved time by the plain one's for each n: of whole runs, and of a further sweep.
#[derive(Default)]
pub struct Ratios {
    pub whole: Vec<(usize, f64)>,
    pub further: Vec<(usize, f64)>,
}

/// Prints the figures, and gives the ratios by n.
pub fn measure() -> Ratios {
    println!("solver, ns a sweep; plain rounds by the sign, plain* without a branch");
    println!(
        "whole runs with limit 16; then a further sweep: runs with limit 3 less runs with limit 1"
    );
    println!("n  proved   plain  ratio  plain*  ratio    proved   plain  ratio  plain*  ratio");
    let mut ratios = Ratios::default();
    for n in 2..=8 {
        let (whole, sweeps) = runs(n, 16);
        let (one, first) = runs(n, 1);
        let (three, third) = runs(n, 3);
        let whole = whole.map(|time| time / sweeps);
        let further = [0, 1, 2].map(|place| (three[place] - one[place]) / (third - first));
        let columns = |times: [f64; 3]| {
            format!(
                "{:7.0} {:7.0} {:6.2} {:7.0} {:6.2}",
                times[0],
                times[1],
                times[0] / times[1],
                times[2],
                times[0] / times[2]
            )
        };
        println!("{n} {}   {}", columns(whole), columns(further));
        ratios.whole.push((n, whole[0] / whole[1]));
        ratios.further.push((n, further[0] / further[1]));
    }
    ratios
}
