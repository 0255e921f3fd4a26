//! A run and its axes.

use crate::random::Random;
use field_axes::{solve, solve_into, Refused, MOST_NUMBERS};

const ENTRY_LIMIT: i64 = reference::record::ENTRY_LIMIT as i64;
const TOLERANCE_LIMIT: u64 = reference::record::TOLERANCE_LIMIT as u64;
/// What stands in the lent buffer before the call.
const FILL: i64 = -7_777_777;

/// Compares one call; the answer is what kind it came to.
pub fn case(seed: u64) -> Result<String, String> {
    let random = &mut Random::new(seed);
    let n = random.between(2, 8) as usize;
    let mut numbers = matrix(random, n);
    let mut given = n;
    let mut limit = random.pick(&[1, 2, 3, 4, 16, 16]);
    let mut tolerance = random.pick(&[0, 0, 1, 100, TOLERANCE_LIMIT]);
    let mut size = MOST_NUMBERS;
    if random.one_in(3) {
        for _ in 0..random.between(1, 2) {
            match random.between(0, 6) {
                0 => given = random.pick(&[0, 1, 9, 1 << 32, usize::MAX]),
                1 => numbers.truncate(random.between(0, numbers.len() as i64) as usize),
                2 => numbers.push(0),
                3 if !numbers.is_empty() => {
                    let place = random.between(0, numbers.len() as i64 - 1) as usize;
                    let other = random.sized(ENTRY_LIMIT);
                    numbers[place] = random.pick(&[
                        ENTRY_LIMIT + 1,
                        -ENTRY_LIMIT - 1,
                        i64::MAX,
                        i64::MIN,
                        other,
                    ]);
                }
                4 => limit = random.pick(&[0, 17, u64::MAX]),
                5 => tolerance = random.pick(&[TOLERANCE_LIMIT + 1, u64::MAX]),
                _ => size = random.between(0, 90) as usize,
            }
        }
    }
    let mut out = vec![FILL; size];
    let got = solve_into(given, &numbers, limit, tolerance, &mut out);
    let mut expected = vec![FILL; size];
    let wanted = by_reference(given, &numbers, limit, tolerance, &mut expected);
    if got != wanted || out != expected {
        return Err(format!(
            "n {given}, numbers {numbers:?}, limit {limit}, tolerance {tolerance}, size {size}: {got:?} {out:?}, \
             and the reference has {wanted:?} {expected:?}"
        ));
    }
    // The function that makes a buffer of its own.
    let own = own(given, &numbers, limit, tolerance);
    let mut whole = vec![FILL; MOST_NUMBERS];
    let wanted = by_reference(given, &numbers, limit, tolerance, &mut whole)
        .map(|count| whole[..count].to_vec());
    if own != wanted {
        return Err(format!(
            "n {given}, numbers {numbers:?}, limit {limit}, tolerance {tolerance}: {own:?}, and the reference has {wanted:?}"
        ));
    }
    Ok(match got {
        Ok(_) => ["settled", "still", "spent"][out[0] as usize].to_string(),
        Err(Refused(number)) => format!("refused {number}"),
    })
}

/// The numbers of a solution, as `solve_into` writes them.
fn own(n: usize, numbers: &[i64], limit: u64, tolerance: u64) -> Result<Vec<i64>, Refused> {
    let solution = solve(n, numbers, limit, tolerance)?;
    let head = [
        solution.outcome as i64,
        solution.sweeps as i64,
        solution.turns as i64,
    ];
    let axes = solution
        .axes
        .into_iter()
        .flat_map(|axis| [axis.entry, axis.error].into_iter().chain(axis.row));
    Ok(head.into_iter().chain(axes).collect())
}

fn by_reference(
    n: usize,
    numbers: &[i64],
    limit: u64,
    tolerance: u64,
    out: &mut [i64],
) -> Result<usize, Refused> {
    let wide: Vec<i128> = numbers.iter().map(|&number| i128::from(number)).collect();
    // The reference does not judge the limit: a load alone comes before it.
    let judged = if (1..=16).contains(&limit) { limit } else { 1 };
    let run = reference::solve(n as i128, &wide, i128::from(judged), i128::from(tolerance))
        .map_err(|number| Refused(number as u32))?;
    if judged != limit {
        return Err(Refused(2));
    }
    let head = [run.outcome as i128, run.sweeps, run.m];
    let all: Vec<i64> = head
        .into_iter()
        .chain(
            run.axes
                .iter()
                .flat_map(|axis| [axis.a_ii, axis.r_i].into_iter().chain(axis.row.clone())),
        )
        .map(|number| i64::try_from(number).expect("a number of 64 bits"))
        .collect();
    out.get_mut(..all.len())
        .ok_or(Refused(12))?
        .copy_from_slice(&all);
    Ok(all.len())
}

/// A symmetric matrix within the limit: small, extreme, near diagonal, or of any size.
fn matrix(random: &mut Random, n: usize) -> Vec<i64> {
    let kind = random.between(0, 6);
    let mut numbers = vec![0; n * n];
    for i in 0..n {
        for j in i..n {
            let sign = random.pick(&[-1, 1]);
            let number = match kind {
                0 => random.between(-1, 1),
                1 => 1,
                2 => random.pick(&[-ENTRY_LIMIT, ENTRY_LIMIT]),
                3 if i == j => random.between(-ENTRY_LIMIT, ENTRY_LIMIT),
                3 => random.between(-2, 2),
                4 if i != j => 0,
                4 | 5 => random.between(-ENTRY_LIMIT, ENTRY_LIMIT),
                _ => sign * random.sized(ENTRY_LIMIT),
            };
            numbers[i * n + j] = number;
            numbers[j * n + i] = number;
        }
    }
    numbers
}
