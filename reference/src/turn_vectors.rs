//! The expected output of the test program `test_turns`, which has no input: its values follow the rule below.
//!
//! draw(k) is x² mod P, where P is 2^31 − 1 and x is 742938285 × k mod P. A value has a number k and a greatest size `most`.
//! With w = 2^31 × draw(3k) + draw(3k + 1) and d = draw(3k + 2), its size is, by d mod 4: 0, w mod 4; 1, most − w mod 4;
//! 2, w mod (most + 1); 3, the whole part of w / 2^s, mod (most + 1), where s is the whole part of d / 4, mod 62. It is
//! negative where the whole part of d / 256 is odd.

use crate::choice::{choose, Choice};
use crate::matrix::Matrix;
use crate::rounding::rnd;
use crate::text::{line, tagged};
use crate::thresholds::{threshold, TANGENT_ONE};
use crate::turn::turn;

const P: i128 = (1 << 31) - 1;
const ENTRY: i128 = (1 << 34) + 1792;
const AXIS: i128 = (1 << 30) + 448;

/// Five lines for each of 300 numbers, and six for the largest that are rounded.
pub fn turns() -> String {
    (0..300)
        .map(|k| rounded(k) + &half(k) + &chosen(k) + &bound(k) + &turned(k))
        .chain([largest_rounded()])
        .collect()
}

/// R u w rnd(u/w): the largest u for the smallest w, and for the largest w the least u that is rounded away from zero and the greatest
/// that is not.
fn largest_rounded() -> String {
    let most = i128::from(i64::MAX);
    [(most, 1), (1 << 62, most), ((1 << 62) - 1, most)]
        .into_iter()
        .flat_map(|(u, w)| [(u, w), (-u, w)])
        .map(|(u, w)| tagged("R", &[u, w, rnd(u, w)]))
        .collect()
}

fn draw(k: i128) -> i128 {
    let x = 742_938_285 * k % P;
    x * x % P
}

fn size(k: i128, most: i128) -> i128 {
    let w = (draw(3 * k) << 31) + draw(3 * k + 1);
    let d = draw(3 * k + 2);
    match d % 4 {
        0 => w % 4,
        1 => most - w % 4,
        2 => w % (most + 1),
        _ => (w >> (d / 4 % 62)) % (most + 1),
    }
}

fn sign(k: i128) -> i128 {
    1 - 2 * (draw(3 * k + 2) / 256 % 2)
}

fn value(k: i128, most: i128) -> i128 {
    sign(k) * size(k, most)
}

/// R u w rnd(u/w)
fn rounded(k: i128) -> String {
    let u = value(8 * k, (1 << 62) + (1 << 52));
    let w = size(8 * k + 1, (1 << 43) - 1) + 1;
    tagged("R", &[u, w, rnd(u, w)])
}

/// H u w rnd(u/w), with w even and u a multiple of w/2
fn half(k: i128) -> String {
    let h = size(8 * k + 2, (1 << 42) - 1) + 1;
    let u = value(8 * k + 3, 1 << 18) * h;
    tagged("H", &[u, 2 * h, rnd(u, 2 * h)])
}

/// C a_pp a_qq a_pq, then l and f, or none
fn chosen(k: i128) -> String {
    let [a_pp, a_qq, a_pq] = [4, 5, 6].map(|i| value(8 * k + i, ENTRY));
    with_choice("C", &[a_pp, a_qq, a_pq], choose(a_pp, a_qq, a_pq))
}

/// B a_qq a_pq, then l and f, or none: a_pp is 0, and a_qq is the largest that some threshold lets through, or one more
fn bound(k: i128) -> String {
    let m = size(8 * k + 7, 511) + 1;
    let l = draw(k) % 14 + 1;
    let g = 2 * m * TANGENT_ONE / threshold(l as u32) + k % 2;
    let (a_qq, a_pq) = (sign(8 * k) * g, sign(8 * k + 7) * m);
    with_choice("B", &[a_qq, a_pq], choose(0, a_qq, a_pq))
}

fn with_choice(tag: &str, numbers: &[i128], choice: Option<Choice>) -> String {
    let mut fields = vec![tag.to_string()];
    fields.extend(numbers.iter().map(i128::to_string));
    match choice {
        Some(choice) => fields.extend([choice.l.to_string(), choice.f.to_string()]),
        None => fields.push("none".to_string()),
    }
    line(fields)
}

/// T n p q l f, a digest of the new matrix and one of the new axes; then both in whole, where k is a multiple of 32
fn turned(k: i128) -> String {
    let n = draw(4 * k) % 7 + 2;
    let q = draw(4 * k + 1) % (n - 1) + 1;
    let p = draw(4 * k + 2) % q;
    let l = draw(4 * k + 3) % 14 + 1;
    let f = sign(k);
    let a = Matrix::by_rule(8, |i, j| {
        value(4096 * k + OFFSETS[i - 1] + OFFSETS[j - 1], ENTRY)
    });
    let v = Matrix::by_rule(8, |i, j| {
        value(4096 * k + 1024 + 64 * i as i128 + OFFSETS[j - 1], AXIS)
    });
    let part = |whole: &Matrix| Matrix::by_rule(n as usize, |i, j| whole.at(i, j));
    let (new_a, new_v) = turn(
        &part(&a),
        &part(&v),
        p as usize + 1,
        q as usize + 1,
        Choice { l: l as u32, f },
    );
    let (new_a, new_v) = (within(&a, &new_a), within(&v, &new_v));
    let mut text = tagged(
        "T",
        &[n, p + 1, q + 1, l, f, digest(&new_a), digest(&new_v)],
    );
    if k % 32 == 0 {
        text += &(rows(&new_a) + &rows(&new_v));
    }
    text
}

/// No two sums of two of these are alike.
const OFFSETS: [i128; 8] = [1, 2, 4, 8, 13, 21, 31, 45];

/// The whole array, with the turned part in its corner.
fn within(whole: &Matrix, part: &Matrix) -> Matrix {
    Matrix::by_rule(whole.n(), |i, j| {
        if i <= part.n() && j <= part.n() {
            part.at(i, j)
        } else {
            whole.at(i, j)
        }
    })
}

/// From 0, for each number x, row after row: 48271 times the last plus |x|, mod P, and P less that where x is negative.
fn digest(matrix: &Matrix) -> i128 {
    matrix.numbers().iter().fold(0, |last, &x| {
        let next = (48_271 * (last % P) + x.abs()) % P;
        if x < 0 {
            P - next
        } else {
            next
        }
    })
}

/// A line of each row, every number after a tab.
fn rows(matrix: &Matrix) -> String {
    (1..=matrix.n())
        .map(|i| tagged("", matrix.row(i)))
        .collect()
}
