//! The table of samples.

use crate::measure::{least, Sequence};
use crate::plain;
use std::hint::black_box;

/// The times of a table of k samples of n channels, proved and plain.
fn tables(n: usize, k: usize) -> (f64, f64) {
    const AGAIN: usize = 8;
    let mut sequence = Sequence(0x7ab1e + n as u64);
    let dilutions: Vec<u32> = (0..k)
        .map(|_| (sequence.next() % 100 + 1) as u32)
        .collect();
    let counts: Vec<u32> = (0..n * k)
        .map(|_| (sequence.next() % 65_536) as u32)
        .collect();
    let mut out = [0; field_axes::MOST_TABLE_NUMBERS];
    let mut other = [0; field_axes::MOST_TABLE_NUMBERS];
    let count = field_axes::table_into(n, &dilutions, &counts, &mut out).expect("good samples");
    assert_eq!(plain::table(n, &dilutions, &counts, &mut other), count);
    assert_eq!(out[..count], other[..count]);
    let [proved, plain] = least([
        &mut || {
            for _ in 0..AGAIN {
                let _ = black_box(field_axes::table_into(
                    n,
                    black_box(&dilutions),
                    &counts,
                    &mut out,
                ));
            }
        },
        &mut || {
            for _ in 0..AGAIN {
                black_box(plain::table(n, black_box(&dilutions), &counts, &mut other));
            }
        },
    ]);
    (proved / AGAIN as f64, plain / AGAIN as f64)
}

/// Prints the figures; gives the ratio, proved to plain, by n and k.
pub fn measure() -> Vec<((usize, usize), f64)> {
    println!("table, ns: by samples, then by channels");
    println!("n    k  proved   plain  ratio");
    let mut ratios = Vec::new();
    for (n, k) in [
        (8, 2),
        (8, 16),
        (8, 64),
        (8, 256),
        (2, 256),
        (4, 256),
        (6, 256),
    ] {
        let (proved, plain) = tables(n, k);
        println!("{n} {k:4} {proved:7.0} {plain:7.0} {:6.2}", proved / plain);
        ratios.push(((n, k), proved / plain));
    }
    ratios
}
