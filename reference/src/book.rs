//! Document 02, W7: a book of samples, and the program `summary`. No summary is kept beside the samples: each is made afresh when it is asked for.

use crate::calls;
use crate::job::MOST_SAMPLES;
use crate::record::Number;
use crate::report::table_text;
use crate::scatter::Sample;
use crate::text::{line, tagged};

/// "their number, channel sums and cross sums": of the channels 1 to n, and of the pairs i ≤ j, row after row.
#[derive(Clone, Debug, PartialEq, Eq)]
pub struct Summary {
    pub number: i128,
    pub channels: Vec<i128>,
    pub crosses: Vec<i128>,
}

/// The samples that are held, of n channels.
#[derive(Clone, Debug, PartialEq, Eq)]
pub struct Book {
    n: usize,
    samples: Vec<Sample>,
}

impl Book {
    /// An empty book. "A summary for n outside 2..8 gets 2."
    pub fn begun(n: i128) -> Result<Book, Number> {
        if !(2..=8).contains(&n) {
            return Err(2);
        }
        Ok(Book {
            n: n as usize,
            samples: Vec::new(),
        })
    }

    pub fn samples(&self) -> &[Sample] {
        &self.samples
    }

    /// "Adding a sample at the end". "An added sample with values out of range gets 2, then one without n counts gets 6, then a 257th gets 3." The
    /// answer is how many are held then.
    pub fn add(&mut self, dilution: i128, counts: &[i128]) -> Result<usize, Number> {
        let in_range = (1..=100).contains(&dilution)
            && counts.iter().all(|count| (0..=65_535).contains(count));
        if !in_range {
            return Err(2);
        }
        if counts.len() != self.n {
            return Err(6);
        }
        if self.samples.len() == MOST_SAMPLES {
            return Err(3);
        }
        self.samples.push(Sample {
            dilution,
            counts: counts.to_vec(),
        });
        Ok(self.samples.len())
    }

    /// "striking the i-th, after which the later ones move up one place". "Striking a number outside 1 to the present number of samples gives 14."
    /// The answer is how many are held then.
    pub fn strike(&mut self, i: i128) -> Result<usize, Number> {
        if !(1..=self.samples.len() as i128).contains(&i) {
            return Err(14);
        }
        self.samples.remove(i as usize - 1);
        Ok(self.samples.len())
    }

    /// The summary "made afresh from those that remain", sample after sample.
    pub fn summary(&self) -> Summary {
        let pairs = self.pairs();
        let mut summary = Summary {
            number: 0,
            channels: vec![0; self.n],
            crosses: vec![0; pairs.len()],
        };
        for sample in &self.samples {
            summary.number += 1;
            for (sum, i) in summary.channels.iter_mut().zip(1..) {
                *sum += sample.value(i);
            }
            for (sum, &(i, j)) in summary.crosses.iter_mut().zip(&pairs) {
                *sum += sample.value(i) * sample.value(j);
            }
        }
        summary
    }

    /// "A rebuild takes the sums one channel pair at a time, from the last sample to the first".
    pub fn rebuilt(&self) -> Summary {
        let backwards =
            |value: &dyn Fn(&Sample) -> i128| self.samples.iter().rev().map(value).sum();
        Summary {
            number: backwards(&|_| 1),
            channels: (1..=self.n)
                .map(|i| backwards(&|sample| sample.value(i)))
                .collect(),
            crosses: self
                .pairs()
                .into_iter()
                .map(|(i, j)| backwards(&|sample| sample.value(i) * sample.value(j)))
                .collect(),
        }
    }

    /// The text of the table, as `table` prints it. "Zero or one sample may be held here; a table from such a summary gets 3, from any other it is
    /// document 01's."
    pub fn table(&self) -> Result<String, Number> {
        if self.samples.len() < 2 {
            return Err(3);
        }
        Ok(table_text(self.n, &self.samples))
    }

    /// The pairs i ≤ j, row after row.
    fn pairs(&self) -> Vec<(usize, usize)> {
        let row = |i| (i..=self.n).map(move |j| (i, j));
        (1..=self.n).flat_map(row).collect()
    }
}

impl Summary {
    /// `Z`, the number, the channel sums, the cross sums.
    fn line(&self) -> String {
        tagged(
            "Z",
            &[&[self.number], &self.channels[..], &self.crosses].concat(),
        )
    }
}

/// The program `summary`: what the calls of a text print, up to the first line that is no call. Lines, numbers and limits are those of `calls`.
pub fn play(input: &[u8]) -> String {
    let mut book = None;
    calls::answers(input, |tag, numbers| {
        let answer = match (tag, numbers) {
            (b"N", [n]) => begin(&mut book, *n),
            (b"A", [dilution, counts @ ..]) => begun(&mut book)
                .and_then(|book| book.add(*dilution, counts))
                .map(|held| tagged("A", &[held as i128])),
            (b"K", [i]) => begun(&mut book)
                .and_then(|book| book.strike(*i))
                .map(|held| tagged("K", &[held as i128])),
            (b"Z", []) => begun(&mut book).map(|book| book.summary().line()),
            (b"B", []) => begun(&mut book).map(|book| book.rebuilt().line()),
            (b"T", []) => begun(&mut book).and_then(|book| book.table()),
            _ => return None,
        };
        Some(answer.unwrap_or_else(|number| tagged("X", &[number])))
    })
}

/// An accepted `N` starts an empty book, and a refused one leaves what stood.
fn begin(book: &mut Option<Book>, n: i128) -> Result<String, Number> {
    *book = Some(Book::begun(n)?);
    Ok(line(["N"]))
}

/// Until a book is begun every call on it is refused 2.
fn begun(book: &mut Option<Book>) -> Result<&mut Book, Number> {
    book.as_mut().ok_or(2)
}

#[cfg(test)]
mod tests {
    use super::*;
    use crate::examples::tabs;
    use crate::job::Job;
    use crate::random::Random;
    use crate::samples::samples;
    use crate::{generate_book, summary_of, table_of};
    use std::collections::BTreeSet;

    /// What a text prints; both with blanks for tabs.
    fn printed(text: &str) -> String {
        String::from_utf8(summary_of(&tabs(text)))
            .unwrap()
            .replace('\t', " ")
    }

    /// The values are (0, 0), (5, 0) and (5, 5): channel sums 10 and 5; cross sums 25 + 25, 25 and 25. S_11 = 3 × 50 − 10 × 10 and so on.
    #[test]
    fn the_samples_of_document_01() {
        let text = "N 2\nZ\nA 1 0 0\nZ\nA 5 1 0\nZ\nA 1 5 5\nZ\nB\nT\n";
        let expected = "N\nZ 0 0 0 0 0 0\nA 1\nZ 1 0 0 0 0 0\nA 2\nZ 2 5 0 25 0 0\nA 3\nZ 3 10 5 50 25 25\nZ 3 10 5 50 25 25\n\
                        T 2 3 0\nS 1 50 25\nS 2 25 50\n";
        assert_eq!(printed(text), expected);
    }

    /// Without the first, (5, 0) and (5, 5): S is 2 × 50 − 100, 2 × 25 − 50 and 2 × 25 − 25. Without the second, (0, 0) and (5, 5): each is
    /// 2 × 25 − 25. Without the third, (0, 0) and (5, 0): S_11 is 2 × 25 − 25.
    #[test]
    fn each_of_them_struck() {
        for (i, rest) in [
            (
                1,
                "Z 2 10 5 50 25 25\nZ 2 10 5 50 25 25\nT 2 2 0\nS 1 0 0\nS 2 0 25\n",
            ),
            (
                2,
                "Z 2 5 5 25 25 25\nZ 2 5 5 25 25 25\nT 2 2 0\nS 1 25 25\nS 2 25 25\n",
            ),
            (
                3,
                "Z 2 5 0 25 0 0\nZ 2 5 0 25 0 0\nT 2 2 0\nS 1 25 0\nS 2 0 0\n",
            ),
        ] {
            let text = format!("N 2\nA 1 0 0\nA 5 1 0\nA 1 5 5\nK {i}\nZ\nB\nT\n");
            assert_eq!(printed(&text), format!("N\nA 1\nA 2\nA 3\nK 2\n{rest}"));
        }
    }

    /// After a strike the later ones have moved up: the new second is the old third.
    #[test]
    fn later_samples_move_up() {
        let text =
            "N 2\nA 1 1 0\nA 1 10 0\nA 1 100 0\nA 1 1000 0\nK 2\nZ\nK 2\nZ\nK 1\nZ\nK 1\nZ\nK 1\n";
        let expected = "N\nA 1\nA 2\nA 3\nA 4\nK 3\nZ 3 1101 0 1010001 0 0\nK 2\nZ 2 1001 0 1000001 0 0\nK 1\nZ 1 1000 0 1000000 0 0\n\
                        K 0\nZ 0 0 0 0 0 0\nX 14\n";
        assert_eq!(printed(text), expected);
    }

    /// Three channels with values 2, 4, 6 and 15, 0, 3: the cross sums 1 1, 1 2, 1 3, 2 2, 2 3, 3 3.
    #[test]
    fn cross_sums_come_row_after_row() {
        let text = "N 3\nA 2 1 2 3\nA 3 5 0 1\nZ\nT\n";
        let expected = "N\nA 1\nA 2\nZ 2 17 4 9 229 8 57 16 24 45\nT 3 2 0\nS 1 169 -52 -39\nS 2 -52 16 12\nS 3 -39 12 9\n";
        assert_eq!(printed(text), expected);
    }

    /// 256 values of 6,553,500 on each of 8 channels, whose square is 42,948,362,250,000.
    #[test]
    fn the_strongest_book_has_its_sums() {
        let add = "A 100".to_string() + &" 65535".repeat(8) + "\n";
        let text = format!("N 8\n{}Z\nB\nT\n{add}K 256\nZ\n", add.repeat(256));
        let printed = printed(&text);
        let after = printed.split_once("A 256\n").unwrap().1;
        let sums = |k: i128, sum: i128, cross: i128| {
            format!(
                "Z {k}{}{}\n",
                format!(" {sum}").repeat(8),
                format!(" {cross}").repeat(36)
            )
        };
        let most = sums(256, 1_677_696_000, 10_994_780_736_000_000);
        let zeros: String = (1..=8)
            .map(|i| format!("S {i}{}\n", " 0".repeat(8)))
            .collect();
        let less = sums(255, 1_671_142_500, 10_951_832_373_750_000);
        assert_eq!(
            after,
            format!("{most}{most}T 8 256 0\n{zeros}X 3\nK 255\n{less}")
        );
        // The longest line that a summary has.
        assert_eq!(most.len(), 742);
    }

    #[test]
    fn refusals_come_in_their_order() {
        // Without a book 2, also where 14, 3 or 6 would apply.
        assert_eq!(
            printed("Z\nB\nT\nK 0\nK 1\nA 1 0 0\nA 1\n"),
            "X 2\n".repeat(7)
        );
        assert_eq!(
            printed("N 1\nN 9\nN 0\nN -2\nN 9999999999\nZ\n"),
            "X 2\n".repeat(6)
        );
        // 2 before 6, at the ends of the ranges.
        let text = "N 2\nA 0 0 0\nA 101 0 0\nA 1 65536 0\nA 1 0 -1\nA 0\nA 1 0 0 65536\nA 1\nA 1 0\nA 1 0 0 0\nA 1 0 0\nA 100 65535 65535\n";
        assert_eq!(
            printed(text),
            format!("N\n{}{}A 1\nA 2\n", "X 2\n".repeat(6), "X 6\n".repeat(3))
        );
        // 6 before 3, and 2 before both.
        let text = format!(
            "N 2\n{}A 1 0 0\nA 1 0\nA 1 0 65536\nA 101\nK 1\nA 1 0 0\nA 1 0 0\n",
            "A 1 0 0\n".repeat(256)
        );
        assert!(printed(&text).ends_with("A 256\nX 3\nX 6\nX 2\nX 2\nK 255\nA 256\nX 3\n"));
        // 14 outside 1 to the present number; 3 for a table of none and of one.
        let text = "N 2\nK 1\nK 0\nT\nA 1 0 0\nK 2\nK 0\nK -1\nK 4294967297\nK 18446744073709551617\nT\nK 1\nK 1\n";
        assert_eq!(
            printed(text),
            format!(
                "N\nX 14\nX 14\nX 3\nA 1\n{}X 3\nK 0\nX 14\n",
                "X 14\n".repeat(5)
            )
        );
    }

    #[test]
    fn a_refused_beginning_leaves_the_book_and_an_accepted_one_empties_it() {
        let text = "N 2\nA 1 3 4\nN 9\nZ\nN 3\nZ\nA 1 3 4\nA 1 3 4 5\n";
        let expected = "N\nA 1\nX 2\nZ 1 3 4 9 12 16\nN\nZ 0 0 0 0 0 0 0 0 0 0\nX 6\nA 1\n";
        assert_eq!(printed(text), expected);
    }

    #[test]
    fn lines_that_are_no_call_end_the_playing() {
        for line in [
            "", "N", "N 2 2", "A", "K", "K 1 1", "Z 0", "B 1", "T 1", "n 2", "NN 2", "A 01 0 0",
            "A +1 0 0", "A 1 -0 0", "A 1  0", "A 1 0 x", "W 1", "X 2", " N 2", "Z ",
        ] {
            let text = format!("N 2\nA 1 0 0\n{line}\nZ\n");
            assert_eq!(printed(&text), "N\nA 1\n? 3\n", "{line:?}");
        }
        assert_eq!(printed("N 2\nZ"), "N\n? 2\n");
        assert_eq!(printed(""), "");
        // As many numbers as a line may have, and one more.
        let numbers = |count| format!("N 2\nA{}\nZ\n", " 1".repeat(count));
        assert_eq!(printed(&numbers(4_096)), "N\nX 6\nZ 0 0 0 0 0 0\n");
        assert_eq!(printed(&numbers(4_097)), "N\n? 2\n");
    }

    /// "after any adds and strikes it equals one made afresh from those that remain": so does a summary that adds and strikes update without
    /// reading the other samples. And the table is that of a job with the `S` lines of those that remain.
    #[test]
    fn updated_summaries_are_those_made_afresh() {
        let mut seen = BTreeSet::new();
        for seed in 0..300 {
            let random = &mut Random::new(seed);
            let n = random.between(2, 8) as usize;
            let mut book = Book::begun(n as i128).unwrap();
            let mut updated = book.summary();
            let more = if random.one_in(4) { 4 } else { 2 };
            for sample in samples(random, n, 300) {
                let held = book.samples().len();
                if random.one_in(more) && held > 0 {
                    let i = random.between(1, held as i128);
                    let struck = book.samples()[i as usize - 1].clone();
                    assert_eq!(book.strike(i), Ok(held - 1));
                    update(&mut updated, &struck, -1);
                }
                if book.add(sample.dilution, &sample.counts).is_ok() {
                    update(&mut updated, &sample, 1);
                }
                assert_eq!(book.summary(), updated);
                assert_eq!(book.rebuilt(), updated);
            }
            seen.insert(book.samples().len() / 50);
            let job = Job {
                n,
                sweep_limit: 1,
                tolerance: 0,
                samples: book.samples().to_vec(),
            };
            let expected = match book.samples().len() {
                0 | 1 => Err(3),
                _ => Ok(table_of(job.text().as_bytes())),
            };
            assert_eq!(book.table().map(String::into_bytes), expected);
        }
        assert!(seen.len() > 2, "{seen:?}");
    }

    fn update(summary: &mut Summary, sample: &Sample, sign: i128) {
        let n = sample.counts.len();
        let mut crosses = summary.crosses.iter_mut();
        summary.number += sign;
        for i in 1..=n {
            summary.channels[i - 1] += sign * sample.value(i);
            for j in i..=n {
                *crosses.next().unwrap() += sign * sample.value(i) * sample.value(j);
            }
        }
    }

    /// Random texts come to every answer, and to each refusal that there is.
    #[test]
    fn generated_texts_come_to_every_answer() {
        let mut kinds = BTreeSet::new();
        for seed in 0..400 {
            let text = String::from_utf8(summary_of(&generate_book(seed))).unwrap();
            for line in text.lines() {
                let mut fields = line.split('\t');
                kinds.insert(match fields.next().unwrap() {
                    "X" => fields.next().unwrap().to_string(),
                    tag => tag.to_string(),
                });
            }
        }
        let expected = ["14", "2", "3", "6", "?", "A", "K", "N", "S", "T", "Z"];
        assert!(kinds.iter().eq(expected), "{kinds:?}");
    }
}
