//! Stored jobs of many samples: the 256th and the 257th, the largest shifts, and the longest text.

use super::{greatest_root, raw, written, Stored, GREATEST_VALUE};
use crate::examples;
use crate::job::Job;
use crate::scatter::Sample;

pub fn jobs() -> Vec<Stored> {
    let longest = raw(
        "256 samples on 8 channels, the longest text",
        &examples::longest(),
    );
    [at_the_257th(), large_shifts(), vec![longest]]
        .into_iter()
        .flatten()
        .collect()
}

fn at_the_257th() -> Vec<Stored> {
    let before: String = "P 2 16 0\n".to_string()
        + &(0..256)
            .map(|s| format!("S 1 {} {}\n", s % 3, s % 7))
            .collect::<String>();
    [
        ("256 samples", "E 256\n"),
        ("256 samples, E's number 257", "E 257\n"),
        ("256 samples, no E", ""),
        ("256 samples, a line feed after E's line", "E 256\n\n"),
        ("257 samples", "S 1 0 0\nE 257\n"),
        ("1 before 3: 257th sample with a letter", "S 1 0 x\nE 257\n"),
        (
            "2 before 3: 257th sample with dilution 0",
            "S 0 0 0\nE 257\n",
        ),
    ]
    .map(|(name, after)| written(name, &(before.clone() + after)))
    .into()
}

/// The shifts that need more than 2 samples: h samples of one value and h of 0 give S = (h × value)². The second channel
/// is with the first or against it.
fn large_shifts() -> Vec<Stored> {
    (1..)
        .map(|e| (e, half_of_samples(e)))
        .skip_while(|&(_, h)| h == 1)
        .take_while(|&(_, h)| h <= 128)
        .map(|(e, h)| {
            let count = (greatest_root(e) / h / 100).min(65_535);
            let second = if e % 2 == 0 { [0, 1] } else { [1, 0] }.map(|with| with * count);
            let sample = |dilution: i128, counts: [i128; 2]| Sample {
                dilution,
                counts: counts.to_vec(),
            };
            let samples = (0..h)
                .flat_map(|_| [sample(100, [count, second[0]]), sample(100, [0, second[1]])])
                .collect();
            let job = Job {
                n: 2,
                sweep_limit: 1 + i128::from(e % 16),
                tolerance: 0,
                samples,
            };
            raw(format!("shift {e}"), job.text().as_bytes())
        })
        .collect()
}

/// The least power of two h for which h × the greatest value goes beyond the shift before e.
fn half_of_samples(e: u32) -> i128 {
    (0..)
        .map(|power| 1 << power)
        .find(|h| h * GREATEST_VALUE > greatest_root(e - 1))
        .expect("powers of two go beyond every number")
}
