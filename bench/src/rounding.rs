//! Rounding alone. The library exports no rounding, so these are the formulas' shapes in plain Rust, compiled here beside each other;
//! nothing here is proved. In the solver the proved code itself is timed.

use crate::measure::{least, Sequence};
use std::hint::black_box;

/// By a test of u's sign, as one writes it.
pub fn by_sign(u: i64, w: i64) -> i64 {
    if u < 0 {
        -((-u + w / 2) / w)
    } else {
        (u + w / 2) / w
    }
}

/// Half of w is added on u's side of zero: what is divided has u's sign. The proved code had this shape before.
pub fn by_side(u: i64, w: u64) -> i64 {
    let sign = 2 * (u >> 63) + 1;
    (u + sign * (w / 2) as i64) / w as i64
}

/// The size is divided, and gets the sign back: what is divided is never negative. The proved code has this shape.
pub fn by_size(u: i64, w: u64) -> i64 {
    let sign = 2 * (u >> 63) + 1;
    let size = (sign * u) as u64;
    sign * ((size + w / 2) / w) as i64
}

type Operands = Vec<(i64, u64)>;

/// Many operands: of a few, again and again, a processor learns the signs by heart. w is the N of a turn.
fn operands(next: impl Fn(&mut Sequence) -> i64) -> Operands {
    let mut sequence = Sequence(0x0dd5);
    (0..1 << 16)
        .map(|_| {
            (
                next(&mut sequence),
                (1 << (2 * (sequence.next() % 14 + 1))) + 1,
            )
        })
        .collect()
}

#[inline(always)]
fn all<'a>(operands: &'a Operands, round: impl Fn(i64, u64) -> i64 + 'a) -> impl FnMut() + 'a {
    move || {
        let mut sum = 0i64;
        for &(u, w) in black_box(operands) {
            sum = sum.wrapping_add(round(u, w));
        }
        black_box(sum);
    }
}

/// Prints the figures.
pub fn measure() {
    const SMALL: u64 = 1 << 30;
    const LARGE: i64 = 1 << 40;
    let sets: [(&str, Operands); 4] = [
        ("small, positive", operands(|s| s.spread(SMALL).abs())),
        ("small, mixed sign", operands(|s| s.spread(SMALL))),
        (
            "large, positive",
            operands(|s| s.spread(SMALL).abs() + LARGE),
        ),
        (
            "large, mixed sign",
            operands(|s| {
                let u = s.spread(SMALL);
                u + u.signum() * LARGE
            }),
        ),
    ];
    println!("rounding alone, the formulas' shapes, ns: size divided as now, half on u's side as before, by the sign");
    println!("operands             now  before  ratio  by sign  ratio");
    for (what, operands) in sets {
        for &(u, w) in &operands {
            assert!(by_size(u, w) == by_sign(u, w as i64) && by_side(u, w) == by_sign(u, w as i64));
        }
        let [now, before, sign] = least([
            &mut all(&operands, by_size),
            &mut all(&operands, by_side),
            &mut all(&operands, |u, w| by_sign(u, w as i64)),
        ])
        .map(|time| time / operands.len() as f64);
        println!(
            "{what:17} {now:6.2} {before:7.2} {:6.2} {sign:8.2} {:6.2}",
            now / before,
            now / sign
        );
    }
}
