//! The same method in plain Rust with 64-bit numbers: the baseline. Nothing here is proved.

pub mod job;

use crate::rounding;

type Rows = [[i64; 8]; 8];

const THRESHOLDS: [i64; 14] = [
    108406627, 15278151, 6575832, 3179943, 1577102, 786961, 393283, 196617, 98306, 49153, 24577,
    12289, 6145, 3073,
];

/// Rounding by the sign of u, as one writes it; or without a branch, as the proved code has it.
fn rnd<const NO_BRANCH: bool>(u: i64, w: i64) -> i64 {
    if NO_BRANCH {
        rounding::by_size(u, w as u64)
    } else {
        rounding::by_sign(u, w)
    }
}

/// l and the sign f, where a turn is chosen.
fn choose(a_pp: i64, a_qq: i64, a_pq: i64) -> Option<(u32, i64)> {
    if a_pq == 0 {
        return None;
    }
    let difference = a_qq - a_pp;
    let y = 2 * a_pq.abs() << 24;
    let g = difference.abs();
    let l = THRESHOLDS
        .iter()
        .position(|&threshold| threshold * g <= y)? as u32
        + 1;
    let f = if (a_pq < 0) != (difference < 0) {
        1
    } else {
        -1
    };
    Some((l, f))
}

fn turn<const NO_BRANCH: bool>(
    a: &mut Rows,
    v: &mut Rows,
    n: usize,
    p: usize,
    q: usize,
    l: u32,
    f: i64,
) {
    let power = 1i64 << (2 * l);
    let (w, c, s) = (power + 1, power - 1, f << (l + 1));
    for i in 0..n {
        if i != p && i != q {
            let (x, y) = (a[p][i], a[q][i]);
            a[p][i] = rnd::<NO_BRANCH>(c * x + s * y, w);
            a[q][i] = rnd::<NO_BRANCH>(c * y - s * x, w);
            a[i][p] = a[p][i];
            a[i][q] = a[q][i];
        }
    }
    let h_pp = rnd::<NO_BRANCH>(c * a[p][p] + s * a[p][q], w);
    let h_pq = rnd::<NO_BRANCH>(c * a[p][q] + s * a[q][q], w);
    let h_qp = rnd::<NO_BRANCH>(c * a[p][q] - s * a[p][p], w);
    let h_qq = rnd::<NO_BRANCH>(c * a[q][q] - s * a[p][q], w);
    a[p][p] = rnd::<NO_BRANCH>(c * h_pp + s * h_pq, w);
    a[p][q] = rnd::<NO_BRANCH>(c * h_pq - s * h_pp, w);
    a[q][p] = a[p][q];
    a[q][q] = rnd::<NO_BRANCH>(c * h_qq - s * h_qp, w);
    for j in 0..n {
        let (x, y) = (v[p][j], v[q][j]);
        v[p][j] = rnd::<NO_BRANCH>(c * x + s * y, w);
        v[q][j] = rnd::<NO_BRANCH>(c * y - s * x, w);
    }
}

fn is_settled(a: &Rows, n: usize, tolerance: i64) -> bool {
    (0..n).all(|p| (p + 1..n).all(|q| a[p][q].abs() <= tolerance))
}

/// What `field_axes_solve` writes, for arguments that nothing refuses.
#[inline(never)]
pub fn solve<const NO_BRANCH: bool>(
    n: usize,
    numbers: &[i64],
    limit: u64,
    tolerance: u64,
    out: &mut [i64],
) -> usize {
    let mut a = [[0; 8]; 8];
    let mut v = [[0; 8]; 8];
    for i in 0..n {
        for j in 0..n {
            a[i][j] = 1024 * numbers[i * n + j];
        }
        v[i][i] = 1 << 30;
    }
    let (mut sweeps, mut m, mut idle) = (0, 0, false);
    let outcome = loop {
        if is_settled(&a, n, tolerance as i64) {
            break 0;
        }
        if idle {
            break 1;
        }
        if sweeps == limit {
            break 2;
        }
        let before = m;
        for p in 0..n {
            for q in p + 1..n {
                if let Some((l, f)) = choose(a[p][p], a[q][q], a[p][q]) {
                    turn::<NO_BRANCH>(&mut a, &mut v, n, p, q, l, f);
                    m += 1;
                }
            }
        }
        idle = m == before;
        sweeps += 1;
    };
    out[..3].copy_from_slice(&[outcome, sweeps as i64, m]);
    for i in 0..n {
        let axis = &mut out[3 + i * (n + 2)..][..n + 2];
        axis[0] = a[i][i];
        axis[1] = (0..n)
            .filter(|&j| j != i)
            .map(|j| a[i][j].abs())
            .sum::<i64>()
            + (7 * m + 1) / 2;
        axis[2..].copy_from_slice(&v[i][..n]);
    }
    3 + n * (n + 2)
}

/// What `field_axes_table` writes, for arguments that nothing refuses.
#[inline(never)]
pub fn table(n: usize, dilutions: &[u32], counts: &[u32], out: &mut [i64]) -> usize {
    let mut channel = [0u64; 8];
    let mut cross = [[0u64; 8]; 8];
    for (&dilution, sample) in dilutions.iter().zip(counts.chunks_exact(n)) {
        let mut z = [0; 8];
        for i in 0..n {
            z[i] = u64::from(sample[i] * dilution);
            channel[i] += z[i];
        }
        for i in 0..n {
            for j in i..n {
                cross[i][j] += z[i] * z[j];
            }
        }
    }
    let k = dilutions.len() as i64;
    let (head, numbers) = out.split_at_mut(1);
    let (sums, entries) = numbers.split_at_mut(n * n);
    let mut largest = 0;
    for i in 0..n {
        for j in 0..n {
            let sum = k * cross[i.min(j)][i.max(j)] as i64 - (channel[i] * channel[j]) as i64;
            sums[i * n + j] = sum;
            largest = largest.max(sum.abs());
        }
    }
    let mut e = 0;
    while 2_097_152 << e < largest {
        e += 1;
    }
    head[0] = e;
    for (entry, &sum) in entries.iter_mut().zip(sums.iter()) {
        *entry = rnd::<false>(sum, 1 << e);
    }
    1 + 2 * n * n
}
