//! How many sweeps a run takes by each order, on the matrices that the benchmark times the solver on.

use crate::matrix::Matrix;
use crate::record::{Record, ENTRY_LIMIT};
use crate::report::{run_from, Outcome, Run, Sweep, RUN_BENCH};

const ORDERS: [(&str, Sweep); 2] = [
    ("cyclic", Record::sweep),
    ("tournament", Record::tournament_sweep),
];

/// A run ends as spent after so many sweeps; the benchmark's tolerance is 0.
const SWEEP_LIMIT: i128 = 16;
const TOLERANCE: i128 = 0;

/// A line for each n and order: the number of runs, the mean sweeps and turns of a run, and how many runs ended settled, still and spent.
pub fn figures() -> String {
    let mut text = "n order runs sweeps turns settled still spent\n".to_string();
    for n in [2, 4, 8] {
        for (name, sweep) in ORDERS {
            let runs: Vec<Run> = matrices(n)
                .iter()
                .map(|matrix| {
                    let mut record = Record::fresh();
                    record
                        .load(RUN_BENCH, n as i128, matrix.numbers())
                        .and_then(|()| run_from(record, sweep, SWEEP_LIMIT, TOLERANCE))
                        .expect("a run that nothing refuses")
                })
                .collect();
            let mean = |figure: fn(&Run) -> i128| {
                runs.iter().map(figure).sum::<i128>() as f64 / runs.len() as f64
            };
            let ended = |outcome| runs.iter().filter(|run| run.outcome == outcome).count();
            text += &format!(
                "{n} {name} {} {:.2} {:.2} {} {} {}\n",
                runs.len(),
                mean(|run| run.sweeps),
                mean(|run| run.m),
                ended(Outcome::Settled),
                ended(Outcome::Still),
                ended(Outcome::Spent)
            );
        }
    }
    text
}

/// The benchmark's matrices, by the rule of `matrices` in bench/src/solver.rs and of `Sequence` in bench/src/measure.rs.
fn matrices(n: usize) -> Vec<Matrix> {
    let mut state = 0x5eed + n as u64;
    (0..2048 / (n * n))
        .map(|_| {
            let mut matrix = Matrix::by_rule(n, |_, _| 0);
            for i in 1..=n {
                for j in i..=n {
                    state ^= state << 13;
                    state ^= state >> 7;
                    state ^= state << 17;
                    let number = i128::from(state) % (2 * ENTRY_LIMIT + 1) - ENTRY_LIMIT;
                    matrix.set(i, j, number);
                    matrix.set(j, i, number);
                }
            }
            matrix
        })
        .collect()
}
