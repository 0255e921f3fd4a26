//! Stored jobs that are accepted: the bench cards, every outcome, small shifts, 2 to 8 channels, orders of axes.

use super::{greatest_root, raw, written, Stored, GREATEST_VALUE};
use crate::examples;
use crate::job::Job;
use crate::random::Random;
use crate::scatter::Sample;

pub fn jobs() -> Vec<Stored> {
    [cards(), outcomes(), small_shifts(), channels(), orders()]
        .into_iter()
        .flatten()
        .collect()
}

/// Cards 1 and 2 have no job; cards 7, 8 and 12 are the printed example.
fn cards() -> Vec<Stored> {
    vec![
        written("printed example", examples::PRINTED),
        written(
            "card 3: block 2, 1, 2",
            "P 2 16 0\nS 1 1 1\nS 1 0 1\nS 1 0 0\nE 3\n",
        ),
        written(
            "card 3 with a negative a_pq",
            "P 2 16 0\nS 1 1 0\nS 1 0 1\nS 1 0 0\nE 3\n",
        ),
        written(
            "card 4: a_pq 0",
            "P 2 16 0\nS 1 0 0\nS 1 3 0\nS 1 0 1\nS 1 3 1\nE 4\n",
        ),
        written(
            "card 5: block 0, 2, 2097152",
            "P 2 16 0\nS 64 1 16384\nS 1 63 0\nE 2\n",
        ),
        written(
            "card 5 with a negative a_pq",
            "P 2 16 0\nS 64 0 16384\nS 1 1 0\nE 2\n",
        ),
        written(
            "card 5, channels exchanged",
            "P 2 16 0\nS 64 16384 1\nS 1 0 63\nE 2\n",
        ),
        written(
            "card 6: block 36, 42, 49",
            "P 2 1 0\nS 1 0 0\nS 1 6 7\nE 2\n",
        ),
        written(
            "card 6: block 148, 172, 200",
            "P 2 1 0\nS 1 0 0\nS 1 1 1\nS 1 6 7\nS 1 7 8\nE 4\n",
        ),
        written(
            "card 9: equal samples",
            "P 3 5 0\nS 2 7 8 9\nS 2 7 8 9\nS 2 7 8 9\nE 3\n",
        ),
        written(
            "card 9: equal values, other dilutions",
            "P 2 1 0\nS 6 4 10\nS 4 6 15\nS 12 2 5\nE 3\n",
        ),
        written(
            "card 9: counts of 0 on 8 channels",
            "P 8 16 0\nS 1 0 0 0 0 0 0 0 0\nS 100 0 0 0 0 0 0 0 0\nE 2\n",
        ),
        written(
            "card 10: S is 2097152",
            "P 2 2 0\nS 1 1024 1\nS 1 0 0\nS 1 0 0\nE 3\n",
        ),
        written(
            "card 10: S is 2097153",
            "P 2 2 0\nS 1 517 1\nS 1 511 2\nS 1 403 0\nS 1 0 0\nS 1 0 0\nS 1 0 1\nE 6\n",
        ),
        written(
            "card 11: S is 42948362250000",
            "P 2 16 0\nS 100 65535 65535\nS 100 0 0\nE 2\n",
        ),
    ]
}

/// The printed example's a_pq is 25600 units, and 7168 after a turn.
fn outcomes() -> Vec<Stored> {
    let example =
        |name: &str, first: &str| written(name, &examples::PRINTED.replace("P 2 1 0", first));
    vec![
        example("settled before a sweep: t is |a_pq|", "P 2 1 25600"),
        example("not settled before a sweep: t is |a_pq| - 1", "P 2 1 25599"),
        example("settled at the limit: t is the new |a_pq|", "P 2 1 7168"),
        example("spent: t is the new |a_pq| - 1", "P 2 1 7167"),
        example("printed example, limit 2", "P 2 2 0"),
        example("printed example, limit 16", "P 2 16 0"),
        written(
            "card 5 within a tolerance of 2048: settled",
            "P 2 16 2048\nS 64 1 16384\nS 1 63 0\nE 2\n",
        ),
        written(
            "card 5 beyond a tolerance of 2047: still",
            "P 2 16 2047\nS 64 1 16384\nS 1 63 0\nE 2\n",
        ),
        written(
            "card 5 at limit 1: still before spent",
            "P 2 1 0\nS 64 1 16384\nS 1 63 0\nE 2\n",
        ),
        written(
            "a diagonal entry below 0",
            "P 2 16 0\nS 64 2 16384\nS 1 28 0\nE 2\n",
        ),
        written(
            "spent after 16 sweeps on 5 channels",
            "P 5 16 0\nS 1 1 1 1 1 0\nS 1 1 1 1 1 1\nS 1 1 1 0 0 0\nS 1 0 0 0 1 1\nS 1 1 1 0 0 0\nS 1 1 1 1 1 1\n\
             S 1 0 1 0 0 1\nE 7\n",
        ),
        written(
            "spent after 16 sweeps and 220 turns on 8 channels",
            "P 8 16 0\nS 1 1 1 1 1 0 1 2 0\nS 1 0 3 2 3 3 0 0 3\nE 2\n",
        ),
        written(
            "one pair of three is 0",
            "P 3 16 0\nS 1 0 0 5\nS 1 3 0 0\nS 1 0 1 0\nS 1 3 1 7\nE 4\n",
        ),
    ]
}

/// For the shifts that 2 samples reach: the greatest S that has the shift, and the least that has the next. S is the
/// square of the difference of two values, 100 × count and another count.
fn small_shifts() -> Vec<Stored> {
    (0..)
        .take_while(|&e| greatest_root(e) < GREATEST_VALUE)
        .flat_map(|e| {
            [
                (format!("shift {e}, greatest S"), greatest_root(e)),
                (format!("shift {}, least S", e + 1), greatest_root(e) + 1),
            ]
        })
        .map(|(name, difference)| {
            let count = (difference + 99) / 100;
            let other = 100 * count - difference;
            let job = Job {
                n: 2,
                sweep_limit: 1 + difference % 16,
                tolerance: difference % 3 * 1000,
                samples: vec![
                    Sample {
                        dilution: 100,
                        counts: vec![count, difference % 7],
                    },
                    Sample {
                        dilution: 1,
                        counts: vec![other, difference % 60_000],
                    },
                ],
            };
            raw(name, job.text().as_bytes())
        })
        .collect()
}

/// Random samples on every number of channels: any counts, and small ones, which rounding keeps turning.
fn channels() -> Vec<Stored> {
    (2..=8usize)
        .flat_map(|n| [(n, "any", 65_535, 100), (n, "small", 3, 1)])
        .map(|(n, kind, greatest_count, greatest_dilution)| {
            let mut random = Random::new(n as u64);
            let samples = (0..n + 2)
                .map(|_| Sample {
                    dilution: random.between(1, greatest_dilution),
                    counts: (0..n).map(|_| random.between(0, greatest_count)).collect(),
                })
                .collect();
            let job = Job {
                n,
                sweep_limit: 16,
                tolerance: 0,
                samples,
            };
            raw(
                format!("{n} channels, {kind} counts"),
                job.text().as_bytes(),
            )
        })
        .collect()
}

/// Reports whose order of axes tells of ties, signs and places: document 02, W3.
fn orders() -> Vec<Stored> {
    vec![
        written("order 2, 1, 3: axes 1 and 3 tied", examples::TIED),
        written(
            "order 2, 1, 3: axes 1 and 3 tied, the first with the larger error",
            "P 3 1 0\nS 1 0 1 4\nS 1 2 4 2\nS 1 0 1 4\nE 3\n",
        ),
        written(
            "order 3, 2, 4, 1: axes 2 and 4 tied",
            "P 4 10 0\nS 1 2 1 2 2\nS 1 0 1 0 0\nS 1 1 2 2 0\nS 1 1 0 2 0\nE 4\n",
        ),
        written(
            "order 3, 2, 4, 1: axes 2 and 4 tied at 1, and axis 1 at -1",
            "P 4 9 0\nS 1 1 5 0 0\nS 1 1 5 0 0\nS 1 0 1 7 2\nE 3\n",
        ),
        written(
            "order 4, 2, 1, 3: two entries below 0",
            examples::NEGATIVE_AXIS,
        ),
        written("order 1, 2, 3: all tied", examples::ALL_TIED),
        written("order 1, 2, 3, 4, 5, 6, 7, 8: all 0", examples::ZEROS),
        one_each("order 1, 2, 3, 4, 5, 6, 7, 8: all tied", [1; 8]),
        one_each(
            "order 1, 2, 3, 4, 5, 6, 7, 8: falling",
            [8, 7, 6, 5, 4, 3, 2, 1],
        ),
        one_each(
            "order 8, 7, 6, 5, 4, 3, 2, 1: rising",
            [1, 2, 3, 4, 5, 6, 7, 8],
        ),
        one_each(
            "order 1, 3, 7, 5, 6, 2, 4, 8: tied by threes and twos",
            [3, 1, 3, 1, 2, 2, 3, 1],
        ),
    ]
}

/// On each channel one sample with a count, the others 0: S_ii is 7 times its square, and no pair is loose.
fn one_each(name: &str, counts: [i128; 8]) -> Stored {
    let samples = (0..8)
        .map(|place| Sample {
            dilution: 1,
            counts: (0..8)
                .map(|i| if i == place { counts[i] } else { 0 })
                .collect(),
        })
        .collect();
    let job = Job {
        n: 8,
        sweep_limit: 1,
        tolerance: 1_048_576,
        samples,
    };
    raw(name, job.text().as_bytes())
}
