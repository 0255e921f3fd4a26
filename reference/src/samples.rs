//! Random samples, of several kinds.

use crate::random::Random;
use crate::scatter::Sample;

/// k samples of n channels, all of one of several kinds.
pub fn samples(random: &mut Random, n: usize, k: usize) -> Vec<Sample> {
    let kind = random.between(0, 9);
    let weights: Vec<i128> = (0..n).map(|_| random.sized(65_535)).collect();
    let one = Sample {
        dilution: random.between(1, 100),
        counts: weights.clone(),
    };
    (0..k)
        .map(|place| match kind {
            // All equal: a table of zeros.
            0 => one.clone(),
            // Few levels, small.
            1 => sample_by(random, 1, n, |random, _| random.between(0, 5)),
            // Extremes alone.
            2 => {
                let dilution = random.pick(&[1, 100]);
                sample_by(random, dilution, n, |random, _| random.pick(&[0, 65_535]))
            }
            // One channel at a time.
            3 => {
                let dilution = random.between(1, 100);
                sample_by(random, dilution, n, |random, i| {
                    if i == place % n {
                        random.sized(65_535)
                    } else {
                        0
                    }
                })
            }
            // Equal on all channels.
            4 => {
                let count = random.sized(65_535);
                let dilution = random.between(1, 100);
                sample_by(random, dilution, n, |_, _| count)
            }
            // Channels of very different size.
            5 => sample_by(random, 1, n, |random, i| random.between(0, weights[i])),
            // Channels that rise together, with a little noise.
            6 => {
                let level = random.between(0, 1000);
                sample_by(random, 1, n, |random, i| {
                    (weights[i] * level / 1000 + random.between(0, 3)).min(65_535)
                })
            }
            // Any size.
            7 => {
                let dilution = random.sized(100).max(1);
                sample_by(random, dilution, n, |random, _| random.sized(65_535))
            }
            // Evenly spread.
            _ => {
                let dilution = random.between(1, 100);
                sample_by(random, dilution, n, |random, _| random.between(0, 65_535))
            }
        })
        .collect()
}

fn sample_by(
    random: &mut Random,
    dilution: i128,
    n: usize,
    count: impl Fn(&mut Random, usize) -> i128,
) -> Sample {
    Sample {
        dilution,
        counts: (0..n).map(|i| count(random, i)).collect(),
    }
}
