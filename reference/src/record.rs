//! Document 01, "The record and its calls", with the refusals 2 and 5 to 11 of its last sections, and document 02's tournament sweep, load of
//! samples, and benches with their refusal 15.

use crate::choice::choose;
use crate::matrix::Matrix;
use crate::pairs::{self, Pair};
use crate::readings;
use crate::scatter::table;
use crate::turn::turn;

/// Units in one: kept entries are the loaded ones times this.
pub const UNITS: i128 = 1024;
/// The diagonal of fresh axes.
pub const AXIS_ONE: i128 = 1 << 30;
/// Loaded entries lie within ± this.
pub const ENTRY_LIMIT: i128 = 2_097_152;
/// A tolerance lies from 0 to this.
pub const TOLERANCE_LIMIT: i128 = 1_048_576;
pub const TURN_LIMIT: i128 = 448;
/// Each count of refused calls stops here.
pub const REFUSED_LIMIT: i128 = 4_294_967_295;
/// "Each call on the record now names a bench from 1 to 4" (document 02, W8).
pub const BENCHES: usize = 4;

/// The number of a refusal.
pub type Number = i128;

/// What is kept of a loaded matrix.
#[derive(Clone, Debug, PartialEq, Eq)]
pub struct Kept {
    pub a: Matrix,
    pub v: Matrix,
    pub m: i128,
    /// The shift of a table made from samples; 0 after a plain load.
    pub e: u32,
}

#[derive(Clone, Debug, PartialEq, Eq)]
pub struct Record {
    kept: Option<Kept>,
    /// How many calls of each bench were refused.
    refused: [i128; BENCHES],
}

/// The answer of the call Axis.
#[derive(Clone, Debug, PartialEq, Eq)]
pub struct Axis {
    pub a_ii: i128,
    pub r_i: i128,
    pub row: Vec<i128>,
}

impl Record {
    /// "A fresh record holds no matrix and a count of 0 refused calls", here for each bench.
    pub fn fresh() -> Record {
        Record {
            kept: None,
            refused: [0; BENCHES],
        }
    }

    /// The counts of benches 1 to 4.
    pub fn refused(&self) -> [i128; BENCHES] {
        self.refused
    }

    pub fn kept(&self) -> Option<&Kept> {
        self.kept.as_ref()
    }

    /// **Load**. Refusals in the order 15, 5, 6, 8, 7.
    pub fn load(&mut self, bench: i128, n: i128, numbers: &[i128]) -> Result<(), Number> {
        let kept = self.called(bench, |_| loaded(n, numbers))?;
        self.kept = Some(kept);
        Ok(())
    }

    /// The second load (document 02, W5): "takes n and samples, is refused as W1's writer refuses them, and loads their table". Refusals in the
    /// order 15, 2, 6, 3. The answer is its e.
    pub fn load_samples(
        &mut self,
        bench: i128,
        n: i128,
        dilutions: &[i128],
        counts: &[i128],
    ) -> Result<u32, Number> {
        let kept = self.called(bench, |_| {
            let samples = readings::samples(n, dilutions, counts)?;
            let table = table(n as usize, &samples);
            Ok(Kept::fresh(&table.entries, table.e))
        })?;
        let e = kept.e;
        self.kept = Some(kept);
        Ok(e)
    }

    /// **Turn** p, q. Refusals in the order 15, 10, 9, 11. The answer says whether a turn was made.
    pub fn turn(&mut self, bench: i128, p: i128, q: i128) -> Result<bool, Number> {
        let (kept, made) = self.called(bench, |record| {
            let kept = record.loaded()?;
            let (p, q) = pair_within(p, q, kept.a.n()).ok_or(9)?;
            if kept.m == TURN_LIMIT {
                return Err(11);
            }
            let mut kept = kept.clone();
            let made = kept.turn_if_chosen(p, q);
            Ok((kept, made))
        })?;
        self.kept = Some(kept);
        Ok(made)
    }

    /// **Sweep**, cyclic by row. Refusals in the order 15, 10, 11. The answer is how many turns it made.
    pub fn sweep(&mut self, bench: i128) -> Result<i128, Number> {
        self.sweep_over(bench, pairs::by_row)
    }

    /// The tournament sweep (document 02, W10): "It is refused as the cyclic sweep is and answers how many turns it made."
    pub fn tournament_sweep(&mut self, bench: i128) -> Result<i128, Number> {
        self.sweep_over(bench, pairs::tournament)
    }

    /// A sweep of all pairs in an order, each chosen on the matrix as it then stands.
    fn sweep_over(
        &mut self,
        bench: i128,
        in_order: fn(usize) -> Vec<Pair>,
    ) -> Result<i128, Number> {
        let (kept, made) = self.called(bench, |record| {
            let kept = record.loaded()?;
            let n = kept.a.n() as i128;
            if kept.m + n * (n - 1) / 2 > TURN_LIMIT {
                return Err(11);
            }
            let mut kept = kept.clone();
            let made = in_order(kept.a.n())
                .into_iter()
                .filter(|&(p, q)| kept.turn_if_chosen(p, q))
                .count();
            Ok((kept, made as i128))
        })?;
        self.kept = Some(kept);
        Ok(made)
    }

    /// **Loose pair** t: the first in row order whose entry exceeds t in size (document 02, W2). Refusals in the order 15, 10, 2.
    pub fn loose_pair(&mut self, bench: i128, t: i128) -> Result<Option<Pair>, Number> {
        self.called(bench, |record| {
            let kept = record.loaded()?;
            if !(0..=TOLERANCE_LIMIT).contains(&t) {
                return Err(2);
            }
            Ok(pairs::by_row(kept.a.n())
                .into_iter()
                .find(|&(p, q)| kept.a.at(p, q).abs() > t))
        })
    }

    /// **Axis** i: a_ii, r_i and row i of v. Refusals in the order 15, 10, 9.
    pub fn axis(&mut self, bench: i128, i: i128) -> Result<Axis, Number> {
        self.called(bench, |record| {
            let kept = record.loaded()?;
            let n = kept.a.n();
            let i = index_within(i, n).ok_or(9)?;
            let beside: i128 = (1..=n)
                .filter(|&j| j != i)
                .map(|j| kept.a.at(i, j).abs())
                .sum();
            let rounding = (7 * kept.m + 1) / 2;
            // "For a table made from readings with e > 0, r_i gains 512 × n units."
            let loading = if kept.e > 0 { 512 * n as i128 } else { 0 };
            Ok(Axis {
                a_ii: kept.a.at(i, i),
                r_i: beside + rounding + loading,
                row: kept.v.row(i).to_vec(),
            })
        })
    }

    /// "10 no matrix loaded": the first refusal of every call but the loads, of a bench from 1 to 4.
    fn loaded(&self) -> Result<&Kept, Number> {
        self.kept.as_ref().ok_or(10)
    }

    /// What a call comes to that a bench makes. "A bench outside 1 to 4 gives 15, tried before everything else, and raises no count." At another
    /// refusal the record changes only in the count of that bench, which stops at its limit.
    fn called<T>(
        &mut self,
        bench: i128,
        call: impl FnOnce(&Record) -> Result<T, Number>,
    ) -> Result<T, Number> {
        let bench = index_within(bench, BENCHES).ok_or(15)?;
        let answer = call(self);
        if answer.is_err() {
            let count = &mut self.refused[bench - 1];
            *count = (*count + 1).min(REFUSED_LIMIT);
        }
        answer
    }

    #[cfg(test)]
    pub fn with_refused(refused: [i128; BENCHES]) -> Record {
        Record {
            kept: None,
            refused,
        }
    }
}

impl Kept {
    /// What a load keeps of these entries.
    fn fresh(entries: &Matrix, e: u32) -> Kept {
        let n = entries.n();
        Kept {
            a: Matrix::by_rule(n, |i, j| entries.at(i, j) * UNITS),
            v: Matrix::by_rule(n, |i, j| if i == j { AXIS_ONE } else { 0 }),
            m: 0,
            e,
        }
    }

    /// "choose, then turn if one was chosen. m counts turns made."
    fn turn_if_chosen(&mut self, p: usize, q: usize) -> bool {
        match choose(self.a.at(p, p), self.a.at(q, q), self.a.at(p, q)) {
            None => false,
            Some(choice) => {
                (self.a, self.v) = turn(&self.a, &self.v, p, q, choice);
                self.m += 1;
                true
            }
        }
    }
}

/// What Load keeps, or its refusal.
fn loaded(n: i128, numbers: &[i128]) -> Result<Kept, Number> {
    if !(2..=8).contains(&n) {
        return Err(5);
    }
    if numbers.len() as i128 != n * n {
        return Err(6);
    }
    if numbers.iter().any(|number| number.abs() > ENTRY_LIMIT) {
        return Err(8);
    }
    let given = Matrix::of_rows(n as usize, numbers);
    if !given.is_symmetric() {
        return Err(7);
    }
    Ok(Kept::fresh(&given, 0))
}

fn index_within(i: i128, n: usize) -> Option<usize> {
    (1 <= i && i <= n as i128).then_some(i as usize)
}

/// 1 ≤ p < q ≤ n.
fn pair_within(p: i128, q: i128, n: usize) -> Option<Pair> {
    (p < q).then_some((index_within(p, n)?, index_within(q, n)?))
}
