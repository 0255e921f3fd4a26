//! The table of some samples.

use crate::random::Random;
use crate::samples::Samples;
use field_axes::{table, table_into, Refused, MOST_TABLE_NUMBERS};
use reference::{readings, scatter};

/// What stands in the lent buffer before the call.
const FILL: i64 = -7_777_777;

/// Compares one call; the answer is what kind it came to.
pub fn case(seed: u64) -> Result<String, String> {
    let random = &mut Random::new(seed);
    let mut samples = Samples::good(random);
    let mut size = MOST_TABLE_NUMBERS;
    if random.one_in(3) {
        for _ in 0..random.between(1, 2) {
            if random.one_in(7) {
                size = random.between(0, 140) as usize;
            } else {
                samples.damage(random);
            }
        }
    }
    let Samples {
        n,
        dilutions,
        counts,
    } = &samples;
    let mut out = vec![FILL; size];
    let got = table_into(*n, dilutions, counts, &mut out);
    let mut expected = vec![FILL; size];
    let wanted = by_reference(&samples, &mut expected);
    if got != wanted || out != expected {
        return Err(format!(
            "{samples:?}, size {size}: {got:?} {out:?}, and the reference has {wanted:?} {expected:?}"
        ));
    }
    // The function that makes a buffer of its own.
    let own = table(*n, dilutions, counts).map(|table| {
        let numbers = table.sums.into_iter().chain(table.entries);
        std::iter::once(i64::from(table.e))
            .chain(numbers)
            .collect::<Vec<i64>>()
    });
    let mut whole = vec![FILL; MOST_TABLE_NUMBERS];
    let wanted = by_reference(&samples, &mut whole).map(|count| whole[..count].to_vec());
    if own != wanted {
        return Err(format!(
            "{samples:?}: {own:?}, and the reference has {wanted:?}"
        ));
    }
    Ok(match got {
        Ok(_) => format!("shift {}", if out[0] == 0 { "0" } else { "above 0" }),
        Err(Refused(number)) => format!("refused {number}"),
    })
}

fn by_reference(given: &Samples, out: &mut [i64]) -> Result<usize, Refused> {
    let (dilutions, counts) = given.wide();
    let samples = readings::samples(given.n as i128, &dilutions, &counts)
        .map_err(|number| Refused(number as u32))?;
    let table = scatter::table(given.n, &samples);
    let all: Vec<i64> = std::iter::once(i128::from(table.e))
        .chain(table.sums.numbers().iter().copied())
        .chain(table.entries.numbers().iter().copied())
        .map(|number| i64::try_from(number).expect("a number of 64 bits"))
        .collect();
    out.get_mut(..all.len())
        .ok_or(Refused(12))?
        .copy_from_slice(&all);
    Ok(all.len())
}
