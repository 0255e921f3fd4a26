//! The expected output of the test program `test_tables`, which has no input: its sample sets follow the rule below.
//!
//! Set c, from 0 to 209, has n = 2 + c mod 7 channels, the kind ⌊c/7⌋ mod 6, and k samples: 2 if c mod 5 is 0, 256 if it
//! is 1, else 2 + draw(c) mod 255. Samples s and counts p are numbered from 0, the counts row after row; in the table below
//! a is 2048 × c + s for a dilution and 2048 × c + p for a count.
//!
//! | kind | dilution of sample s | count p |
//! |---|---|---|
//! | 0 | 1 | 0 |
//! | 1 | 100 | 65535 |
//! | 2 | 100 | 65535 if ⌊p/n⌋ + p mod n is even, else 0 |
//! | 3 | 1 + draw(a) mod 100 | draw(a) |
//! | 4 | 1 | draw(a) mod 8 |
//! | 5 | 1 if draw(a) is even, else 100 | draw(a) |

use crate::scatter::{table, Sample};
use crate::text::line;

/// For each set n, k, e and the entries row after row.
pub fn scatter() -> String {
    (0..210).map(set).collect()
}

fn set(c: i128) -> String {
    let n = 2 + c % 7;
    let kind = c / 7 % 6;
    let k = match c % 5 {
        0 => 2,
        1 => 256,
        _ => 2 + draw(c) % 255,
    };
    let samples: Vec<Sample> = (0..k)
        .map(|s| Sample {
            dilution: dilution(kind, draw(2048 * c + s)),
            counts: (n * s..n * (s + 1))
                .map(|p| count(kind, draw(2048 * c + p), (p / n + p % n) % 2 == 0))
                .collect(),
        })
        .collect();
    let table = table(n as usize, &samples);
    line([&[n, k, i128::from(table.e)], table.entries.numbers()].concat())
}

fn dilution(kind: i128, drawn: i128) -> i128 {
    match kind {
        1 | 2 => 100,
        3 => 1 + drawn % 100,
        5 if drawn % 2 != 0 => 100,
        _ => 1,
    }
}

fn count(kind: i128, drawn: i128, even: bool) -> i128 {
    match kind {
        0 => 0,
        1 => 65_535,
        2 if even => 65_535,
        2 => 0,
        4 => drawn % 8,
        _ => drawn,
    }
}

/// ⌊((69069 × a + 1) mod 2^31 × 1103515245 + 12345) mod 2^31 / 2^15⌋, from 0 to 65535.
fn draw(a: i128) -> i128 {
    let x = (69_069 * a + 1) % (1 << 31);
    ((x * 1_103_515_245 + 12_345) % (1 << 31)) >> 15
}
