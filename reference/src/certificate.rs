//! Document 02, W5: "The error now bounds the exact row of Q times S/2^e, against that row times the kept diagonal entry." A buyer's own
//! multiplication, in exact fractions over whole numbers of any size: D is the product of the N of all turns, and P is D × Q.

use crate::choice::choose;
use crate::examples::{tabs, STRONG};
use crate::job::Job;
use crate::matrix::Matrix;
use crate::record::{Record, BENCHES, UNITS};
use crate::report::{job_run, report};
use crate::scatter::table;
use crate::turn::rotation;
use crate::whole::Whole;
use crate::{generate_job, job, pairs};

/// D and P after the cyclic sweeps of a run, each pair chosen on the kept matrix as it then stands.
struct Exact {
    d: Whole,
    p: Vec<Vec<Whole>>,
}

impl Exact {
    fn of_sweeps(record: &mut Record, sweeps: i128) -> Exact {
        let n = record.kept().unwrap().a.n();
        let mut exact = Exact {
            d: Whole::from(1),
            p: (0..n)
                .map(|i| (0..n).map(|j| Whole::from(i128::from(i == j))).collect())
                .collect(),
        };
        // "so the error promise covers any mix of benches"
        let mut benches = (1..=BENCHES as i128).cycle();
        for _ in 0..sweeps {
            for ((p, q), bench) in pairs::by_row(n).into_iter().zip(&mut benches) {
                let a = &record.kept().unwrap().a;
                if let Some(choice) = choose(a.at(p, p), a.at(q, q), a.at(p, q)) {
                    exact.turn(p - 1, q - 1, rotation(choice));
                }
                record.turn(bench, p as i128, q as i128).unwrap();
            }
        }
        exact
    }

    /// Multiplied from the left by the rotation written whole: c, s, −s in their places and N on the rest of the diagonal.
    fn turn(&mut self, p: usize, q: usize, (big_n, c, s): (i128, i128, i128)) {
        let [c, s, big_n] = [c, s, big_n].map(Whole::from);
        for (i, row) in self.p.iter_mut().enumerate() {
            if i != p && i != q {
                row.iter_mut()
                    .for_each(|entry| *entry = entry.times(&big_n));
            }
        }
        for j in 0..self.p.len() {
            let (x, y) = (self.p[p][j].clone(), self.p[q][j].clone());
            self.p[p][j] = c.times(&x).plus(&s.times(&y));
            self.p[q][j] = c.times(&y).minus(&s.times(&x));
        }
        self.d = self.d.times(&big_n);
    }

    /// Whether row i of Q × S/2^e lies within an error of row i of Q × a_ii, in units, all times 2^e × D and squared.
    fn within(&self, i: usize, sums: &Matrix, e: u32, a_ii: i128, error: i128) -> bool {
        let row = &self.p[i - 1];
        let power = Whole::from(1 << e);
        let by_diagonal = power.times(&Whole::from(a_ii));
        let mut squares = Whole::from(0);
        for k in 1..=row.len() {
            let mut product = Whole::from(0);
            for (j, entry) in (1..).zip(row) {
                product = product.plus(&entry.times(&Whole::from(sums.at(j, k))));
            }
            let difference = Whole::from(UNITS)
                .times(&product)
                .minus(&by_diagonal.times(&row[k - 1]));
            squares = squares.plus(&difference.times(&difference));
        }
        let most = power.times(&self.d).times(&Whole::from(error));
        !squares.is_above(&most.times(&most))
    }
}

/// For each `A` line of a job's report, in the report's order: whether the error that is printed bounds the row, and whether the error without
/// 512 × n does.
fn bounded(job: &Job) -> Vec<(bool, bool)> {
    let table = table(job.n, &job.samples);
    let (e, run) = job_run(job);
    let mut record = Record::fresh();
    let (dilutions, counts) = job.handed_over();
    let loaded = record.load_samples(4, job.n as i128, &dilutions, &counts);
    assert_eq!((loaded, table.e), (Ok(e), e));
    let exact = Exact::of_sweeps(&mut record, run.sweeps);
    let kept = record.kept().unwrap();
    assert_eq!((kept.m, kept.e), (run.m, e));
    report(job)
        .lines()
        .skip(1)
        .map(|line| {
            let fields = line.split('\t').skip(1);
            let numbers: Vec<i128> = fields.map(|number| number.parse().unwrap()).collect();
            let (i, a_ii, r_i) = (numbers[0] as usize, numbers[1], numbers[2]);
            assert_eq!((a_ii, &numbers[3..]), (kept.a.at(i, i), kept.v.row(i)));
            let gained = if e > 0 { 512 * job.n as i128 } else { 0 };
            let within = |error| exact.within(i, &table.sums, e, a_ii, error);
            (within(r_i), within(r_i - gained))
        })
        .collect()
}

/// By hand: S_11 is 1449² = 2,099,601 and every other S is 0, so e = 1, the entry is rnd(1,049,800.5) = 1,049,801, and nothing is turned. The
/// buyer's row 1 is 1,049,800.5, half of one from the entry: 512 units. The old error is 0, the new one 2 × 512.
#[test]
fn a_buyer_finds_more_than_the_old_error_and_not_more_than_the_new() {
    let job = job::read(&tabs(STRONG)).unwrap();
    let (e, run) = job_run(&job);
    assert_eq!((e, run.m), (1, 0));
    assert_eq!(
        (run.axes[0].a_ii, run.axes[0].r_i),
        (1_049_801 * 1024, 1024)
    );
    assert_eq!(bounded(&job), [(true, false), (true, true)]);
    let mut record = Record::fresh();
    let (dilutions, counts) = job.handed_over();
    record.load_samples(1, 2, &dilutions, &counts).unwrap();
    let exact = Exact::of_sweeps(&mut record, 0);
    let sums = table(2, &job.samples).sums;
    let within = |error| exact.within(1, &sums, 1, 1_049_801 * 1024, error);
    assert_eq!([511, 512].map(within), [false, true]);
}

/// The same of runs that turn, on jobs of every number of channels; where e is 0 the error has gained nothing and is enough.
#[test]
fn printed_errors_bound_the_rows_of_the_raw_readings() {
    let mut exceeded = 0;
    let mut shifted = 0;
    for seed in 0..400 {
        let Ok(job) = job::read(&generate_job(seed)) else {
            continue;
        };
        let (e, run) = job_run(&job);
        for (printed, old) in bounded(&job) {
            assert!(printed, "seed {seed}");
            assert!(old || e > 0, "seed {seed}");
            exceeded += usize::from(!old && run.m > 0);
        }
        shifted += usize::from(e > 0 && run.m > 0);
    }
    assert!(shifted > 100 && exceeded > 20, "{shifted}, {exceeded}");
}
