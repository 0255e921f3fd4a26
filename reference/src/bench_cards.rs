//! Document 01's bench cards 1 to 12 and its printed example, the latter in document 02's order of axes; the orders of its refusals; and document
//! 02's loose pair, tournament sweep, load of samples and benches.

use crate::calls::play;
use crate::choice::{choose, Choice};
use crate::examples::{KEEPS_TURNING, PRINTED};
use crate::job;
use crate::matrix::Matrix;
use crate::pairs;
use crate::record::{Record, AXIS_ONE, BENCHES, REFUSED_LIMIT, TURN_LIMIT, UNITS};
use crate::report::{axes_program, job_run, report_into, table_program, Denied, Outcome};
use crate::rounding::rnd;
use crate::scatter::{shift, table, Sample};
use crate::thresholds::threshold;
use crate::turn::{rotation, turn};
use crate::{generate_calls, generate_job, solve, Axis};

/// A text written with blanks for tabs.
fn tabs(text: &str) -> String {
    text.replace(' ', "\t")
}

fn axes(text: &str) -> String {
    axes_program(tabs(text).as_bytes())
}

/// The number and the line of a refusal of job text.
fn refused(text: &str) -> (i128, i128) {
    let refusal = job::read(tabs(text).as_bytes()).unwrap_err();
    (refusal.number, refusal.line)
}

fn sample(dilution: i128, counts: &[i128]) -> Sample {
    Sample {
        dilution,
        counts: counts.to_vec(),
    }
}

const EXAMPLE_REPORT: &str =
    "R 2 3 0 1 1 spent\nA 2 75776 7172 858993459 644245094\nA 1 26624 7172 644245094 -858993459\n";

#[test]
fn card_1() {
    assert_eq!(
        [1, 2, 3].map(threshold),
        [108_406_627, 15_278_151, 6_575_832]
    );
}

#[test]
fn card_2() {
    assert_eq!(
        [(7, 5), (-7, 5), (8, 5), (3, 2), (-3, 2)].map(|(u, w)| rnd(u, w)),
        [1, -1, 2, 2, -2]
    );
}

#[test]
fn card_3() {
    assert_eq!(choose(2, 2, 1), Some(Choice { l: 1, f: -1 }));
}

#[test]
fn card_4() {
    assert_eq!(choose(5, 900, 0), None);
    assert_eq!(choose(7, 7, 0), None);
}

#[test]
fn card_5() {
    assert_eq!(choose(0, 1_073_741_824, 1024), None);
    let run = solve(2, &[0, 1, 1, 1_048_576], 16, 0).unwrap();
    assert_eq!((run.outcome, run.sweeps, run.m), (Outcome::Still, 1, 0));
}

#[test]
fn card_6() {
    assert_eq!([42, 43].map(|a_pq| choose(0, 13, a_pq).unwrap().l), [2, 1]);
}

#[test]
fn card_7() {
    let a = Matrix::of_rows(2, &[50, 25, 25, 50]);
    let (a, _) = turn(&a, &a, 1, 2, choose(50, 50, 25).unwrap());
    assert_eq!(a.numbers(), [26, -7, -7, 74]);
}

#[test]
fn card_8() {
    let table = table(
        2,
        &[sample(1, &[0, 0]), sample(5, &[1, 0]), sample(1, &[5, 5])],
    );
    assert_eq!((table.sums.numbers(), table.e), (&[50, 25, 25, 50][..], 0));
    assert_eq!(
        table_program(tabs(PRINTED).as_bytes()),
        tabs("T 2 3 0\nS 1 50 25\nS 2 25 50\n")
    );
}

#[test]
fn card_9() {
    let report = axes("P 3 5 0\nS 2 7 8 9\nS 2 7 8 9\nS 2 7 8 9\nE 3\n");
    assert!(
        report.starts_with(&tabs("R 3 3 0 0 0 settled\n")),
        "{report}"
    );
}

#[test]
fn card_10() {
    for (sum, e, entry) in [
        (2_097_152, 0, 2_097_152),
        (2_097_153, 1, 1_048_577),
        (-2_097_153, 1, -1_048_577),
    ] {
        let sums = Matrix::of_rows(2, &[1, sum, sum, 0]);
        assert_eq!(shift(&sums), e);
        assert_eq!(rnd(sum, 1 << e), entry);
    }
    let three = table(
        2,
        &[
            sample(1, &[1024, 1]),
            sample(1, &[0, 0]),
            sample(1, &[0, 0]),
        ],
    );
    assert_eq!(
        (three.sums.at(1, 1), three.e, three.entries.at(1, 1)),
        (2_097_152, 0, 2_097_152)
    );
}

#[test]
fn card_11() {
    let table = table(2, &[sample(100, &[65_535, 65_535]), sample(100, &[0, 0])]);
    assert_eq!(table.sums.numbers(), [42_948_362_250_000; 4]);
    assert_eq!(
        (table.e, table.entries.numbers()),
        (25, &[1_279_961; 4][..])
    );
}

/// Document 02, W3: "In the printed example axis 2 now comes before axis 1 .. The axis call is untouched." So is a run on numbers.
#[test]
fn card_12_and_the_printed_example() {
    assert_eq!(axes(PRINTED), tabs(EXAMPLE_REPORT));
    let run = solve(2, &[50, 25, 25, 50], 1, 0).unwrap();
    let entries = |axes: &[Axis]| axes.iter().map(|axis| axis.a_ii).collect::<Vec<_>>();
    assert_eq!(entries(&run.axes), [26_624, 75_776]);
    let mut record = Record::fresh();
    record.load(1, 2, &[50, 25, 25, 50]).unwrap();
    record.sweep(1).unwrap();
    let called = [1, 2].map(|i| record.axis(1, i).unwrap());
    assert_eq!(called, run.axes[..]);
}

#[test]
fn rotations_are_exact() {
    for l in 1..=14 {
        for f in [-1, 1] {
            let (big_n, c, s) = rotation(Choice { l, f });
            assert_eq!(c * c + s * s, big_n * big_n);
        }
    }
}

/// "the nearest whole number, halves away from zero"
#[test]
fn rounding_is_to_the_nearest() {
    for w in 1..=24 {
        for u in -120..=120 {
            let (distance, r) = (2 * (u - w * rnd(u, w)).abs(), rnd(u, w));
            assert!(
                distance < w || distance == w && (w * r).abs() > u.abs(),
                "{u}/{w}"
            );
        }
    }
}

/// "T_l is 2^24 × 2uw / (u² − w²), rounded up"
#[test]
fn thresholds_are_rounded_up_and_fall() {
    for l in 1..=14 {
        let (u, w) = ((1i128 << (2 * l + 1)) - 1, 3i128 << l);
        let above = (1 << 25) * u * w;
        let below = u * u - w * w;
        assert!((threshold(l) - 1) * below < above && above <= threshold(l) * below);
    }
    assert!((1..14).all(|l| threshold(l) > threshold(l + 1)));
}

/// "l is the smallest from 1 to 14 with y × 2^24 ≥ T_l × g", and the sign is that of a turn which makes |a_pq| smaller.
#[test]
fn the_smallest_l_that_fits_is_chosen() {
    for a_pq in (-9..=9).chain([-3000, -200, 200, 3000]) {
        for a_qq in (-40..=40).chain([-1 << 20, -70_000, 70_000, 1 << 20]) {
            let fits = |l: u32| 2 * i128::abs(a_pq) << 24 >= threshold(l) * i128::abs(a_qq);
            let Some(Choice { l, f }) = choose(0, a_qq, a_pq) else {
                assert!(a_pq == 0 || !(1..=14).any(fits));
                continue;
            };
            assert!(a_pq != 0 && fits(l) && !(1..l).any(fits));
            assert_eq!(f, if (a_pq < 0) == (a_qq < 0) { -1 } else { 1 });
            let (big_n, c, s) = rotation(Choice { l, f });
            let turned = c * s * a_qq + (c * c - s * s) * a_pq;
            assert!(turned.abs() < a_pq.abs() * big_n * big_n);
        }
    }
}

/// Card 7's block beside a third channel, by hand: N = 5, c = 3, s = −4.
#[test]
fn a_turn_of_three_channels() {
    let a = Matrix::of_rows(3, &[50, 25, 10, 25, 50, 20, 10, 20, 7]);
    let v = Matrix::by_rule(3, |i, j| if i == j { AXIS_ONE } else { 0 });
    let (a, v) = turn(&a, &v, 1, 2, Choice { l: 1, f: -1 });
    assert_eq!(a.numbers(), [26, -7, -10, -7, 74, 20, -10, 20, 7]);
    assert_eq!(v.row(1), [644_245_094, -858_993_459, 0]);
    assert_eq!(v.row(2), [858_993_459, 644_245_094, 0]);
    assert_eq!(v.row(3), [0, 0, AXIS_ONE]);
}

/// "The shift e is the smallest e ≥ 0 with every |S_ij| ≤ 2,097,152 × 2^e", under document 02's W9.
#[test]
fn a_shift_is_the_smallest_and_a_table_symmetric() {
    for seed in 0..300 {
        let Ok(job) = job::read(&generate_job(seed)) else {
            continue;
        };
        let table = table(job.n, &job.samples);
        let within = |e: u32| {
            let most = 2_097_152i128 << e;
            table.sums.numbers().iter().all(|sum| sum.abs() <= most)
        };
        assert!(within(table.e) && (table.e == 0 || !within(table.e - 1)));
        assert!(table.sums.is_symmetric() && table.entries.is_symmetric());
        assert!((1..=job.n).all(|i| table.sums.at(i, i) >= 0));
        assert!(table
            .entries
            .numbers()
            .iter()
            .all(|entry| entry.abs() <= 2_097_152));
    }
}

#[test]
fn job_lines_are_refused_in_their_order() {
    assert_eq!(refused(""), (1, 1));
    assert_eq!(refused("P 2 1 0"), (1, 1));
    assert_eq!(refused("P 2 1 0\n"), (1, 2));
    assert_eq!(refused("P 2 1 0\n\n"), (1, 2));
    assert_eq!(refused("S 1 0 0\n"), (1, 1));
    assert_eq!(refused("P 9 1\n"), (1, 1));
    assert_eq!(refused("P 9 01 0\n"), (1, 1));
    assert_eq!(refused("P 9 1 0"), (1, 1));
    assert_eq!(refused("P 9 1 0\n"), (2, 1));
    assert_eq!(refused("P 2 0 0\n"), (2, 1));
    assert_eq!(refused("P 2 17 0\n"), (2, 1));
    assert_eq!(refused("P 2 1 1048577\n"), (2, 1));
    assert_eq!(refused("P 2 1 10485760\n"), (1, 1));
    assert_eq!(refused("P 2 1 0\nS 0 1 1\n"), (2, 2));
    assert_eq!(refused("P 2 1 0\nS 101 1 x\n"), (1, 2));
    assert_eq!(refused("P 2 1 0\nS 1 1 65536\n"), (2, 2));
    assert_eq!(refused("P 2 1 0\nP 2 1 0\n"), (1, 2));
    assert_eq!(refused("P 2 1 0\nE 0\n"), (3, 2));
    assert_eq!(refused("P 2 1 0\nE 0 0\n"), (1, 2));
    assert_eq!(refused("P 2 1 0\nS 1 1 1\nE 7\nmore"), (3, 3));
    assert_eq!(refused("P 2 1 0\nS 1 1 1\nS 1 1 1\nE 3\n"), (4, 4));
    assert_eq!(refused("P 2 1 0\nS 1 1 1\nS 1 1 1\nE 9999999\n"), (4, 4));
    assert_eq!(refused("P 2 1 0\nS 1 1 1\nS 1 1 1\nE 2"), (1, 4));
    assert_eq!(refused("P 2 1 0\nS 1 1 1\nS 1 1 1\nE 2\n\n"), (4, 4));
    assert_eq!(axes("P 2 1 0\nE 0\n"), tabs("X 3 2\n"));
}

#[test]
fn a_257th_sample_is_refused_3_after_1_and_2() {
    let many = |k: usize| "P 2 1 0\n".to_string() + &"S 1 1 1\n".repeat(k);
    assert!(job::read(tabs(&(many(256) + "E 256\n")).as_bytes()).is_ok());
    assert_eq!(refused(&many(257)), (3, 258));
    assert_eq!(refused(&(many(256) + "S 1 1 65536\n")), (2, 258));
    assert_eq!(refused(&(many(256) + "S 1 1\n")), (1, 258));
    assert_eq!(refused(&many(256)), (1, 258));
}

#[test]
fn a_report_longer_than_the_buffer_is_refused_last_and_the_buffer_stays() {
    let (text, report) = (tabs(PRINTED), tabs(EXAMPLE_REPORT));
    let mut buffer = vec![7; report.len() + 3];
    assert_eq!(report_into(text.as_bytes(), &mut buffer), Ok(report.len()));
    assert_eq!(buffer, [report.as_bytes(), &[7, 7, 7]].concat());
    let mut short = vec![7; report.len() - 1];
    assert_eq!(
        report_into(text.as_bytes(), &mut short),
        Err(Denied::Buffer)
    );
    assert!(short.iter().all(|&byte| byte == 7));
    assert!(matches!(report_into(b"", &mut []), Err(Denied::Job(_))));
}

#[test]
fn calls_are_refused_in_their_order() {
    let mut record = Record::fresh();
    assert_eq!(record.turn(1, 0, 0), Err(10));
    assert_eq!(record.sweep(1), Err(10));
    assert_eq!(record.tournament_sweep(1), Err(10));
    assert_eq!(record.loose_pair(1, -1), Err(10));
    assert_eq!(record.axis(1, 0), Err(10));
    assert_eq!(record.load(1, 1, &[]), Err(5));
    assert_eq!(record.load(1, 9, &[]), Err(5));
    assert_eq!(record.load(1, 2, &[0, 1, 2_000_000]), Err(6));
    assert_eq!(record.load(1, 2, &[0, 1, 2, 2_097_153]), Err(8));
    assert_eq!(record.load(1, 2, &[0, 1, 2, -2_097_152]), Err(7));
    assert_eq!(record.refused(), [10, 0, 0, 0]);
    assert_eq!(record.load(1, 2, &[0, 1, 1, -2_097_152]), Ok(()));
    assert_eq!(
        record.kept().unwrap().v.numbers(),
        [AXIS_ONE, 0, 0, AXIS_ONE]
    );
    let before = record.kept().cloned();
    assert_eq!(record.load(1, 2, &[0, 1, 2, 0]), Err(7));
    assert_eq!(record.turn(1, 2, 1), Err(9));
    assert_eq!(record.turn(1, 1, 3), Err(9));
    assert_eq!(record.turn(1, 0, 2), Err(9));
    assert_eq!(record.loose_pair(1, 1_048_577), Err(2));
    assert_eq!(record.loose_pair(1, -1), Err(2));
    assert_eq!(record.axis(1, 3), Err(9));
    assert_eq!(
        (record.kept(), record.refused()),
        (before.as_ref(), [17, 0, 0, 0])
    );
    assert_eq!(record.loose_pair(1, 1023), Ok(Some((1, 2))));
    assert_eq!(record.loose_pair(1, 1024), Ok(None));
}

/// Document 02, W5: "A second load, beside the plain one, takes n and samples, is refused as W1's writer refuses them, and loads their table. The
/// record remembers its e, which is 0 for a plain load."
#[test]
fn a_load_of_samples_remembers_its_shift() {
    let mut record = Record::fresh();
    assert_eq!(record.load_samples(1, 9, &[1], &[0]), Err(2));
    assert_eq!(record.load_samples(1, 2, &[1], &[65_536]), Err(2));
    assert_eq!(record.load_samples(1, 2, &[1], &[0]), Err(6));
    assert_eq!(record.load_samples(1, 2, &[1], &[0, 0]), Err(3));
    assert_eq!((record.kept(), record.refused()), (None, [4, 0, 0, 0]));
    let e = |record: &Record| record.kept().unwrap().e;
    let strong = [100, 100];
    let counts = [65_535, 65_535, 0, 0];
    assert_eq!(record.load_samples(1, 2, &strong, &counts), Ok(25));
    assert_eq!(e(&record), 25);
    // "r_i gains 512 × n units", beside the entry 1,279,961 in units and no turn.
    assert_eq!(record.axis(1, 1).unwrap().r_i, 1_279_961 * UNITS + 2 * 512);
    record.sweep(1).unwrap();
    let before = record.kept().cloned();
    assert_eq!(e(&record), 25);
    assert_eq!(record.load_samples(1, 2, &strong, &counts[..3]), Err(6));
    assert_eq!(record.load(1, 2, &[0, 1, 2, 0]), Err(7));
    assert_eq!(record.kept(), before.as_ref());
    record.load(1, 2, &[1_279_961; 4]).unwrap();
    assert_eq!(e(&record), 0);
    assert_eq!(record.axis(1, 1).unwrap().r_i, 1_279_961 * UNITS);
    // Equal tables, one of samples with e = 0: nothing is gained.
    let printed = ([1, 5, 1], [0, 0, 1, 0, 5, 5]);
    assert_eq!(record.load_samples(1, 2, &printed.0, &printed.1), Ok(0));
    let mut plain = Record::fresh();
    plain.load(1, 2, &[50, 25, 25, 50]).unwrap();
    assert_eq!(record.kept(), plain.kept());
}

/// A job's run starts from the record that the load of its samples leaves.
#[test]
fn reports_have_the_larger_error() {
    for seed in 0..300 {
        let Ok(job) = job::read(&generate_job(seed)) else {
            continue;
        };
        let table = table(job.n, &job.samples);
        let n = job.n as i128;
        let numbers = table.entries.numbers();
        let plain = solve(n, numbers, job.sweep_limit, job.tolerance).unwrap();
        let (e, run) = job_run(&job);
        assert_eq!(e, table.e);
        let gained = if e > 0 { 512 * n } else { 0 };
        for (axis, plain) in run.axes.iter().zip(&plain.axes) {
            assert_eq!(axis.r_i, plain.r_i + gained);
            assert_eq!((axis.a_ii, &axis.row), (plain.a_ii, &plain.row));
        }
        assert_eq!((run.m, run.outcome), (plain.m, plain.outcome));
    }
}

/// Document 02, W2: "the first in row order, (1,2), (1,3) and on to (n−1,n), whose entry exceeds the tolerance in size, whatever
/// its sign". By columns (2,3) comes before (1,4), and from the end (3,4) before both.
#[test]
fn the_loose_pair_is_the_first_in_row_order() {
    let (a_14, a_23, a_34) = (-5, 7, -9);
    let mut record = Record::fresh();
    let rows = [
        [0, 0, 0, a_14],
        [0, 0, a_23, 0],
        [0, a_23, 0, a_34],
        [a_14, 0, a_34, 0],
    ];
    record.load(1, 4, &rows.concat()).unwrap();
    for (t, pair) in [
        (0, Some((1, 4))),
        (5 * UNITS - 1, Some((1, 4))),
        (5 * UNITS, Some((2, 3))),
        (7 * UNITS - 1, Some((2, 3))),
        (7 * UNITS, Some((3, 4))),
        (9 * UNITS - 1, Some((3, 4))),
        (9 * UNITS, None),
    ] {
        assert_eq!(record.loose_pair(1, t), Ok(pair), "t = {t}");
    }
}

/// "every one stopping at the old ceiling"
#[test]
fn each_count_of_refused_calls_stops() {
    for bench in 1..=4 {
        let place = bench as usize - 1;
        let mut counts = [7; BENCHES];
        counts[place] = REFUSED_LIMIT - 1;
        let mut record = Record::with_refused(counts);
        counts[place] = REFUSED_LIMIT;
        for _ in 0..3 {
            assert_eq!(record.sweep(bench), Err(10));
            assert_eq!(record.refused(), counts);
        }
        // A count that stands still holds back no other.
        let other = bench % 4 + 1;
        assert_eq!(record.axis(other, 1), Err(10));
        counts[other as usize - 1] += 1;
        assert_eq!(record.refused(), counts);
    }
    let full = [REFUSED_LIMIT; BENCHES];
    let mut record = Record::with_refused(full);
    assert_eq!(record.load(3, 1, &[]), Err(5));
    assert_eq!(record.load(3, 2, &[0; 4]), Ok(()));
    assert_eq!(
        (record.turn(0, 1, 2), record.turn(4, 2, 1)),
        (Err(15), Err(9))
    );
    assert_eq!(record.refused(), full);
}

/// The refusals of each call, with no argument that is right: 10 before a matrix is loaded, for all but the loads.
fn wrong_calls(record: &mut Record, bench: i128) -> [Option<i128>; 7] {
    [
        record.load(bench, 1, &[]).err(),
        record.load_samples(bench, 9, &[], &[]).err(),
        record.turn(bench, 2, 1).err(),
        record.sweep(bench).err(),
        record.tournament_sweep(bench).err(),
        record.loose_pair(bench, -1).err(),
        record.axis(bench, 0).err(),
    ]
}

/// Document 02, W8: "A refused call raises its own bench's count and no other."
#[test]
fn each_bench_has_its_own_count() {
    let mut record = Record::fresh();
    let mut counts = [0; BENCHES];
    for (rounds, bench) in [(3, 2), (1, 4), (2, 1), (5, 3), (1, 2)] {
        for _ in 0..rounds {
            assert_eq!(
                wrong_calls(&mut record, bench),
                [5, 2, 10, 10, 10, 10, 10].map(Some)
            );
            counts[bench as usize - 1] += 7;
            assert_eq!((record.kept(), record.refused()), (None, counts));
        }
    }
    assert_eq!(counts, [14, 28, 35, 7]);
    record.load(1, 2, &[0; 4]).unwrap();
    for bench in 1..=4 {
        assert_eq!(
            wrong_calls(&mut record, bench),
            [Some(5), Some(2), Some(9), None, None, Some(2), Some(9)]
        );
        counts[bench as usize - 1] += 5;
        assert_eq!(record.refused(), counts);
    }
}

/// "A bench outside 1 to 4 gives 15, tried before everything else, and raises no count."
#[test]
fn another_bench_gives_15_before_everything_else_and_no_count() {
    let others = [0, 5, -1, -4, 257, (1 << 32) + 1, 9_999_999_999, -(1 << 64)];
    let right_calls = |record: &mut Record, bench: i128| {
        [
            record.load(bench, 2, &[3, 1, 1, 3]).err(),
            record.load_samples(bench, 2, &[1, 1], &[0, 0, 1, 1]).err(),
            record.turn(bench, 1, 2).err(),
            record.sweep(bench).err(),
            record.tournament_sweep(bench).err(),
            record.loose_pair(bench, 0).err(),
            record.axis(bench, 1).err(),
        ]
    };
    // Without a matrix, before 10, 5 and 2; with one, before 9 and 2; where the turns are used up, before 11.
    let mut none = Record::fresh();
    none.axis(3, 1).unwrap_err();
    let mut loaded = none.clone();
    loaded.load(2, 2, &[50, 25, 25, 50]).unwrap();
    let mut used_up = loaded.clone();
    used_up.load(4, 8, &KEEPS_TURNING).unwrap();
    while used_up.sweep(1).is_ok() {}
    assert_eq!(used_up.sweep(2), Err(11));
    for record in [none, loaded, used_up] {
        for bench in others {
            let mut called = record.clone();
            assert_eq!(wrong_calls(&mut called, bench), [Some(15); 7], "{bench}");
            assert_eq!(right_calls(&mut called, bench), [Some(15); 7], "{bench}");
            assert_eq!(called, record);
        }
    }
}

/// The fields of each answer to a text of calls.
fn answered(text: &str) -> Vec<Vec<String>> {
    let fields = |line: &str| line.split('\t').map(str::to_string).collect();
    play(text.as_bytes()).lines().map(fields).collect()
}

/// The counts that refused calls print are those of the benches that their lines name.
#[test]
fn counts_are_of_the_benches_that_the_lines_name() {
    let mut seen = [0; 2];
    for seed in 0..300 {
        let text = generate_calls(seed);
        let text = String::from_utf8_lossy(&text);
        let mut counts = [0; BENCHES];
        for (line, answer) in text.lines().zip(answered(&text)) {
            let [tag, number, printed @ ..] = &answer[..] else {
                continue;
            };
            if tag != "X" {
                continue;
            }
            let bench = line.split('\t').nth(1).unwrap();
            let place = ["1", "2", "3", "4"].iter().position(|name| *name == bench);
            assert_eq!(place.is_none(), number == "15", "{line}");
            if let Some(place) = place {
                counts[place] += 1;
            }
            seen[usize::from(place.is_some())] += 1;
            assert!(
                printed.iter().eq(&counts.map(|count| count.to_string())),
                "seed {seed}: {line}"
            );
        }
    }
    assert!(seen.iter().all(|&number| number > 300), "{seen:?}");
}

/// "Answers, kept matrix and axes don't depend on which of the four called": texts of calls in which each of the four is made another.
#[test]
fn answers_do_not_depend_on_which_of_the_four_called() {
    let renamed = |text: &str, name: fn(usize, usize) -> usize| {
        let mut lines = Vec::new();
        for (number, line) in text.split('\n').enumerate() {
            let mut fields: Vec<&str> = line.split('\t').collect();
            let names = ["1", "2", "3", "4"];
            if let Some(place) = names.iter().position(|name| fields.get(1) == Some(name)) {
                fields[1] = names[name(number, place) % BENCHES];
            }
            lines.push(fields.join("\t"));
        }
        lines.join("\n")
    };
    let without_counts = |text: &str| {
        let mut answers = answered(text);
        for answer in &mut answers {
            if answer[0] == "X" {
                answer.truncate(2);
            }
        }
        answers
    };
    for seed in 0..300 {
        let text = generate_calls(seed);
        let text = String::from_utf8_lossy(&text);
        let expected = without_counts(&text);
        let names: [fn(usize, usize) -> usize; 3] = [
            |_, _| 0,
            |_, place| place + 1,
            |number, place| number * number / 2 + place,
        ];
        for name in names {
            let renamed = renamed(&text, name);
            assert_eq!(without_counts(&renamed), expected, "seed {seed}");
        }
    }
}

/// Sweeps, then turns, on a matrix on which rounding keeps pairs turning: a sweep is refused while fewer turns than its
/// pairs remain, a turn at 448, and before that an index outside the matrix.
#[test]
fn turns_are_used_up_at_448() {
    let mut record = Record::fresh();
    record.load(1, 8, &KEEPS_TURNING).unwrap();
    assert!((0..TURN_LIMIT).any(|_| record.sweep(1).is_err()));
    let m = |record: &Record| record.kept().unwrap().m;
    assert!((421..=448).contains(&m(&record)), "{}", m(&record));
    let pairs: Vec<(i128, i128)> = (1..=8)
        .flat_map(|p| (p + 1..=8).map(move |q| (p, q)))
        .collect();
    for &(p, q) in pairs.iter().cycle().take(2000) {
        let before = m(&record);
        match record.turn(1, p, q) {
            Ok(made) => assert_eq!(m(&record), before + i128::from(made)),
            Err(number) => assert_eq!((number, before), (11, 448)),
        }
    }
    assert_eq!(m(&record), 448);
    assert_eq!(
        (record.turn(1, 2, 1), record.turn(1, 1, 2), record.sweep(1)),
        (Err(9), Err(11), Err(11))
    );
    assert_eq!(record.axis(1, 1).unwrap().row.len(), 8);
}

/// Document 02, W10: "It is refused as the cyclic sweep is". Sweeps of both orders and single turns until just so many are made: with 28 left of
/// 448 a sweep of 28 pairs is not refused, with 27 it is, and the record keeps its matrix.
#[test]
fn a_tournament_sweep_is_refused_11_as_the_cyclic_one() {
    let m = |record: &Record| record.kept().unwrap().m;
    for made in [420, 421] {
        let mut record = Record::fresh();
        record.load(1, 8, &KEEPS_TURNING).unwrap();
        while m(&record) + 56 <= made {
            let before = m(&record);
            let turns = record.sweep(1).unwrap() + record.tournament_sweep(1).unwrap();
            assert_eq!(m(&record), before + turns);
        }
        let pairs = (1..=8).flat_map(|p| (p + 1..=8).map(move |q| (p, q)));
        for (p, q) in pairs.cycle().take(2000) {
            if m(&record) < made {
                record.turn(1, p, q).unwrap();
            }
        }
        assert_eq!(m(&record), made);
        let before = record.clone();
        if made == 420 {
            let turns = record.tournament_sweep(1).unwrap();
            assert_eq!(m(&record), 420 + turns);
        } else {
            assert_eq!(record.tournament_sweep(1), Err(11));
            assert_eq!(record.sweep(1), Err(11));
            assert_eq!(
                (record.kept(), record.refused()),
                (before.kept(), [2, 0, 0, 0])
            );
        }
    }
}

/// By hand, over 7225 = 25 × 289, so that no entry is rounded. Three channels are turned in the order (1,2), (2,3), (1,3).
/// (1,2): a_12 = 0, no turn. (2,3): equal diagonal, so l = 1, f = −1, c/N = 3/5, s/N = −4/5. With k = 289 it gives a_12 = −20k, a_13 = 15k,
/// a_22 = −24k, a_23 = −7k, a_33 = 24k, from a_13 = a_23 = 25k. (1,3): y = 30k, g = 24k, so l = 2, f = −1, c/N = 15/17, s/N = −8/17. It gives
/// a_12 = −244 × 17 = −4148, a_23 = −265 × 17 = −4505, a_11 = −2064, a_13 = −465, a_33 = 9000. Two turns add 7 units to each error.
#[test]
fn a_tournament_sweep_by_hand() {
    let mut record = Record::fresh();
    let rows = [[0, 0, 7225], [0, 0, 7225], [7225, 7225, 0]];
    record.load(1, 3, &rows.concat()).unwrap();
    assert_eq!(record.tournament_sweep(1), Ok(2));
    let kept = record.kept().unwrap();
    let entries = [
        [-2064, -4148, -465],
        [-4148, -6936, -4505],
        [-465, -4505, 9000],
    ];
    assert_eq!(
        kept.a.numbers(),
        entries
            .concat()
            .iter()
            .map(|entry| entry * UNITS)
            .collect::<Vec<_>>()
    );
    // Rows of v: 3/5 and 4/5 of 2^30 are 644245094.4 and 858993459.2; then 15/17 and 8/17 of the rounded ones.
    assert_eq!(
        kept.v.numbers(),
        [
            [947_419_256, -404_232_216, -303_174_162],
            [0, 644_245_094, -858_993_459],
            [505_290_270, 757_935_405, 568_451_554],
        ]
        .concat()
    );
    assert_eq!(record.axis(1, 1).unwrap().r_i, (4148 + 465) * UNITS + 7);
    // The cyclic sweep takes (1,3) before (2,3), and comes to another matrix.
    let mut other = Record::fresh();
    other.load(1, 3, &rows.concat()).unwrap();
    other.sweep(1).unwrap();
    assert_ne!(other.kept().unwrap().a, record.kept().unwrap().a);
}

/// A sweep is its pairs, each done as a turn, in its own order; for two channels both orders are the one pair.
#[test]
fn a_tournament_sweep_is_the_turns_of_its_pairs() {
    for n in 2..=8 {
        let rows = |i: usize, j: usize| KEEPS_TURNING[8 * (i - 1) + (j - 1)];
        let matrix = Matrix::by_rule(n, rows);
        let mut swept = Record::fresh();
        swept.load(1, n as i128, matrix.numbers()).unwrap();
        let mut turned = swept.clone();
        for _ in 0..4 {
            let made = pairs::tournament(n)
                .into_iter()
                .filter(|&(p, q)| turned.turn(1, p as i128, q as i128).unwrap())
                .count();
            assert_eq!(swept.tournament_sweep(1), Ok(made as i128));
            assert_eq!(swept, turned);
        }
    }
}

/// V A Vᵀ, in units, lies near the kept matrix after any calls.
#[test]
fn the_kept_axes_turn_the_loaded_matrix_into_the_kept_one() {
    for seed in 0..300 {
        let text = generate_job(seed);
        let Ok(job) = job::read(&text) else { continue };
        let loaded = table(job.n, &job.samples).entries;
        let mut record = Record::fresh();
        record.load(4, job.n as i128, loaded.numbers()).unwrap();
        // Lists that mix the two orders, and the benches.
        for number in 0..job.sweep_limit {
            let bench = number % 4 + 1;
            if (seed >> (number % 8)) & 1 == 0 {
                record.sweep(bench).unwrap();
            } else {
                record.tournament_sweep(bench).unwrap();
            }
        }
        let kept = record.kept().unwrap();
        let product = |x: &Matrix, y: &Matrix| {
            Matrix::by_rule(job.n, |i, j| {
                (1..=job.n)
                    .map(|between| x.at(i, between) * y.at(between, j))
                    .sum()
            })
        };
        let mirrored = Matrix::by_rule(job.n, |i, j| kept.v.at(j, i));
        let turned = product(&product(&kept.v, &loaded), &mirrored);
        for i in 1..=job.n {
            for j in 1..=job.n {
                let difference = rnd(turned.at(i, j), 1 << 50) - kept.a.at(i, j);
                assert!(
                    difference.abs() <= 20 * kept.m,
                    "seed {seed}: {difference} after {} turns",
                    kept.m
                );
            }
        }
    }
}

#[test]
fn every_generated_text_is_read_to_an_answer() {
    for seed in 0..3000 {
        let job = axes_program(&generate_job(seed));
        assert!(job.starts_with("R\t") || job.starts_with("X\t"));
        play(&generate_calls(seed));
    }
}

#[test]
fn a_text_of_calls_is_played_to_its_first_line_that_is_no_call() {
    assert_eq!(played(""), "");
    assert_eq!(
        played(
            "W 1\nL 2 2 50 25 25 50\nQ 3 0\nT 4 1 2\nA 1 1\nA 2 2\nQ 3 7168\nT 4 2 2\nA 1 0\nL 2 2\nL 3 1 -5\nW -1\nL 4 2 -\nW 1\n"
        ),
        "X 10 1 0 0 0\nL\nQ 1 2\nT 1\nA 26624 7172 644245094 -858993459\nA 75776 7172 858993459 644245094\nQ none\nX 9 1 0 0 1\n\
         X 9 2 0 0 1\nX 6 2 1 0 1\nX 5 2 1 1 1\nX 15 2 1 1 1\n? 13\n"
    );
    for no_call in [
        "\n",
        "W\n",
        "W 1",
        "W \n",
        "W 1 \n",
        "W 1 1\n",
        "W 01\n",
        "W -0\n",
        "W +1\n",
        "W x\n",
        "W 0 0\n",
        "w 1\n",
        "O\n",
        "O 1",
        "O \n",
        "O 1 1\n",
        "o 1\n",
        "L\n",
        "L 1\n",
        "L 9\n",
        "L 1 2 -0\n",
        "L 1 2 01\n",
        "L 1 2 -01\n",
        "M\n",
        "M 1\n",
        "M 1 2\n",
        "M 1 2 -1\n",
        "M 1 2 1\n",
        "M 5 2 1\n",
        "M 1 2 3 1 1\n",
        "M 1 2 3 -1 99999999999\n",
        "M 1 2 00 1 1\n",
        "M 1 2 2 1 1 0 0 0 -0\n",
        "M 1 2 10000000000 1 1 0 0 0 0\n",
        "M 1 2 99999999999999999999999999 1 1 0 0 0 0\n",
        "m 1 2 2 1 1 0 0 0 0\n",
        "T\n",
        "T 1\n",
        "T 1 2\n",
        "T 1 1 2 3\n",
        "Q\n",
        "Q 1\n",
        "Q 5\n",
        "A 1\n",
        "A 1 1 2\n",
        "A 1 +1\n",
        "A +1 1\n",
        "A 1 00000000000\n",
        "A 1 1234567890x\n",
    ] {
        assert_eq!(played(no_call), "? 1\n", "{no_call:?}");
    }
}

/// `O` has no number but the bench; it is answered by `O` and the number of turns, or refused as `X`, the number and the four counts.
#[test]
fn a_tournament_sweep_is_a_call() {
    assert_eq!(
        played("O 3\nL 1 2 50 25 25 50\nO 2\nA 1 1\nA 4 2\nO 1 0\n"),
        "X 10 0 0 1 0\nL\nO 1\nA 26624 7172 644245094 -858993459\nA 75776 7172 858993459 644245094\n? 6\n"
    );
}

/// "a number that is too long, or negative where the call's argument has a range, is a value out of that range"
#[test]
fn a_wrong_call_gets_its_number() {
    let digits = "1".repeat(300);
    for (wrong, number) in [
        ("Q 1 -1", 2),
        ("Q 1 10000000000", 2),
        ("A 1 -1", 9),
        ("T 1 -1 2", 9),
        ("T 1 1 18446744073709551618", 9),
        ("L 1 -1 0", 5),
        ("L 1 9 0", 5),
        ("L 1 2 0", 6),
        ("M 1 -1 0", 2),
        ("M 1 10000000000 2 1 1 0 0 0 0", 2),
        ("M 1 2 2 1 1 0 0 0 10000000000", 2),
        ("M 1 2 2 -1 1 0 0 0 0", 2),
        ("M 1 2 2 1 1 0 0 0 -1", 2),
        ("M 1 2 2 1 1 0 0 0", 6),
        ("M 1 2 2 1 1", 6),
        ("M 1 2 1 1 0 0", 3),
        ("M 1 2 0", 3),
        (&format!("M 1 2 2 1 1 0 0 {digits} 0"), 2),
        ("L 1 2 10000000000 0 0 0", 8),
        ("L 1 2 -10000000000 0 0 0", 8),
        (&format!("L 1 2 -{digits} 0 0 0"), 8),
        (&format!("Q 1 {digits}"), 2),
    ] {
        let text = format!("L 1 2 0 0 0 0\n{wrong}\n");
        let answers = format!("L\nX {number} 1 0 0 0\n");
        assert_eq!(played(&text), answers, "{wrong}");
    }
    // So is a bench.
    let long = format!("-{digits}");
    let beyond = [
        "0",
        "5",
        "-1",
        "-4",
        "9999999999",
        "10000000000",
        "4294967297",
    ];
    for bench in beyond.into_iter().chain([&digits[..], &long]) {
        for call in [
            "Q {} 0",
            "Q {} -1",
            "A {} 1",
            "A {} 3",
            "T {} 1 2",
            "T {} 2 1",
            "W {}",
            "O {}",
            "L {} 2 1 0 0 1",
            "L {} 9",
            "M {} 2 2 1 1 0 0 1 1",
            "M {} 9 0",
        ] {
            let text = call.replace("{}", bench) + "\nA 1 1\n";
            assert_eq!(played(&text), "X 15 0 0 0 0\nX 10 1 0 0 0\n", "{text}");
            let text = format!("L 2 2 0 1 1 0\n{text}");
            let answers = "L\nX 15 0 0 0 0\nA 0 1024 1073741824 0\n";
            assert_eq!(played(&text), answers, "{text}");
        }
    }
}

#[test]
fn a_line_has_at_most_4096_numbers() {
    let zeros = |count| " 0".repeat(count);
    let ones = |count| " 1".repeat(count);
    let (refused, no_call) = ("X 6 0 1 0 0\n", "? 1\n");
    assert_eq!(played(&format!("L 2 2{}\n", zeros(4_094))), refused);
    assert_eq!(played(&format!("L 2 2{}\n", zeros(4_095))), no_call);
    assert_eq!(played(&format!("M 2 2 4093{}\n", ones(4_093))), refused);
    assert_eq!(played(&format!("M 2 2 2{}\n", ones(4_093))), refused);
    assert_eq!(played(&format!("M 2 2 2{}\n", ones(4_094))), no_call);
    assert_eq!(played(&format!("L 5 2{}\n", zeros(4_095))), no_call);
}

/// "If input is left after 65,536 bytes, the last line says so"
#[test]
fn the_first_line_that_is_not_read_whole_is_said() {
    let lines = "W 3\n".repeat(16_383);
    let answers = |text: &str| {
        played(&(lines.clone() + text))
            .lines()
            .skip(16_383)
            .collect::<Vec<_>>()
            .join("/")
    };
    assert_eq!(answers("W 3\n"), "X 10 0 0 16384 0");
    assert_eq!(answers("W 3\nW"), "X 10 0 0 16384 0/? 16385");
    assert_eq!(answers("W 3\n\n"), "X 10 0 0 16384 0/? 16385");
    assert_eq!(answers("W 33\n"), "? 16384");
    assert_eq!(answers("WW 3\n"), "? 16384");
}

fn played(text: &str) -> String {
    play(tabs(text).as_bytes()).replace('\t', " ")
}
