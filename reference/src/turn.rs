//! Document 01, "Making a turn".

use crate::choice::Choice;
use crate::matrix::Matrix;
use crate::rounding::rnd;

/// The whole numbers N, c, s of the exact rotation.
pub fn rotation(choice: Choice) -> (i128, i128, i128) {
    let power = 1i128 << (2 * choice.l);
    (power + 1, power - 1, choice.f * (1i128 << (choice.l + 1)))
}

/// The matrix a and the axes v after the turn on the pair p < q. Every new entry comes from old ones.
pub fn turn(a: &Matrix, v: &Matrix, p: usize, q: usize, choice: Choice) -> (Matrix, Matrix) {
    let (big_n, c, s) = rotation(choice);
    let to_p = |x: i128, y: i128| rnd(c * x + s * y, big_n);
    let to_q = |x: i128, y: i128| rnd(-s * x + c * y, big_n);

    let mut new_a = a.clone();
    // "For i other than p, q", with the mirrors.
    for i in (1..=a.n()).filter(|&i| i != p && i != q) {
        let new_pi = to_p(a.at(p, i), a.at(q, i));
        let new_qi = to_q(a.at(p, i), a.at(q, i));
        new_a.set(p, i, new_pi);
        new_a.set(i, p, new_pi);
        new_a.set(q, i, new_qi);
        new_a.set(i, q, new_qi);
    }
    // "Block, first pass".
    let h_pp = to_p(a.at(p, p), a.at(p, q));
    let h_pq = to_p(a.at(p, q), a.at(q, q));
    let h_qp = to_q(a.at(p, p), a.at(p, q));
    let h_qq = to_q(a.at(p, q), a.at(q, q));
    // "Block, second pass": a_pq and a_qp are one number.
    let new_pq = to_q(h_pp, h_pq);
    new_a.set(p, p, to_p(h_pp, h_pq));
    new_a.set(p, q, new_pq);
    new_a.set(q, p, new_pq);
    new_a.set(q, q, to_q(h_qp, h_qq));

    let mut new_v = v.clone();
    // "Axes v, every column j".
    for j in 1..=v.n() {
        new_v.set(p, j, to_p(v.at(p, j), v.at(q, j)));
        new_v.set(q, j, to_q(v.at(p, j), v.at(q, j)));
    }
    (new_a, new_v)
}
