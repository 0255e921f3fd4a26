//! Document 02, W13: all small panels, and the program `panels`.

use crate::calls::signed;
use crate::record::Number;
use crate::report::run;
use crate::text::{line, tagged};

/// "a size b from 0 to 8"
pub const MOST_SIZE: i128 = 8;

/// A symmetric matrix of two channels: a_11, a_12, a_22.
pub type Panel = [i128; 3];

/// "list all symmetric matrices with entries from −b to b, ordered by a_11, then a_12, then a_22, smallest first"; 2 for a b outside 0 to 8.
pub fn panels(b: i128) -> Result<Vec<Panel>, Number> {
    if !(0..=MOST_SIZE).contains(&b) {
        return Err(2);
    }
    let entries = -b..=b;
    let mut panels = Vec::new();
    for a_11 in entries.clone() {
        for a_12 in entries.clone() {
            for a_22 in entries.clone() {
                panels.push([a_11, a_12, a_22]);
            }
        }
    }
    Ok(panels)
}

/// The matrix at a position of the list, from 1.
pub fn panel(b: i128, position: i128) -> Result<Panel, Number> {
    let panels = panels(b)?;
    let place = usize::try_from(position - 1).map_err(|_| 2)?;
    panels.get(place).copied().ok_or(2)
}

/// The position of a matrix in the list.
pub fn position(b: i128, panel: Panel) -> Result<i128, Number> {
    let panels = panels(b)?;
    let place = panels.iter().position(|&other| other == panel);
    place.map(|place| place as i128 + 1).ok_or(2)
}

/// "Each is run with limit 16 and tolerance 0, and written .. as one line ended by a line feed ..: the three entries, sweeps run, m, outcome, parted
/// by tabs."
pub fn text(b: i128) -> Result<String, Number> {
    Ok(panels(b)?.into_iter().map(panel_line).collect())
}

fn panel_line(panel: Panel) -> String {
    let [a_11, a_12, a_22] = panel;
    let run = run(2, &[a_11, a_12, a_12, a_22], 16, 0).expect("small entries");
    let numbers = [a_11, a_12, a_22, run.sweeps, run.m];
    line(
        numbers
            .iter()
            .map(i128::to_string)
            .chain([run.outcome.word().to_string()]),
    )
}

/// The program `panels`, with b as its one argument: the text, or the line of the refusal; `?` alone where there is no such argument.
pub fn program<Word: AsRef<[u8]>>(arguments: &[Word]) -> String {
    match arguments {
        [word] => match signed(word.as_ref()) {
            Some(b) => text(b).unwrap_or_else(|number| tagged("X", &[number])),
            None => line(["?"]),
        },
        _ => line(["?"]),
    }
}

#[cfg(test)]
mod tests {
    use super::*;
    use crate::solve;

    #[test]
    fn there_are_so_many_each_once_in_order() {
        for b in 0..=MOST_SIZE {
            let panels = panels(b).unwrap();
            assert_eq!(panels.len() as i128, (2 * b + 1).pow(3));
            // Increasing in the order of arrays, which is by the first entry that differs: so none comes twice.
            assert!(panels.is_sorted_by(|x, y| x < y));
            let within = |panel: &Panel| panel.iter().all(|entry| entry.abs() <= b);
            assert!(panels.iter().all(within));
        }
    }

    #[test]
    fn position_and_matrix_give_each_other() {
        for b in [0, 1, 2, 3, 8] {
            let w: i128 = 2 * b + 1;
            for at in [
                1,
                2,
                w,
                w + 1,
                w * w,
                w * w + 1,
                (w.pow(3) + 1) / 2,
                w.pow(3),
            ] {
                let Ok(found) = panel(b, at) else {
                    assert!(at > w.pow(3));
                    continue;
                };
                assert_eq!(position(b, found), Ok(at));
                // By digits of base 2b + 1.
                let digits = [(at - 1) / w / w, (at - 1) / w % w, (at - 1) % w];
                assert_eq!(found, digits.map(|digit| digit - b));
            }
        }
        assert_eq!(panel(8, 1), Ok([-8, -8, -8]));
        assert_eq!(panel(8, 4913), Ok([8, 8, 8]));
        assert_eq!(position(8, [0, 0, 0]), Ok(2457));
    }

    #[test]
    fn values_beyond_their_ranges_are_refused_2() {
        for b in [-1, 9, i128::from(i64::MIN), i128::from(i64::MAX)] {
            assert_eq!(panels(b), Err(2));
            assert_eq!(text(b), Err(2));
            assert_eq!(panel(b, 1), Err(2));
            assert_eq!(position(b, [0, 0, 0]), Err(2));
        }
        for at in [i128::from(i64::MIN), -1, 0, 28, i128::from(i64::MAX)] {
            assert_eq!(panel(1, at), Err(2));
        }
        for beyond in [[2, 0, 0], [0, -2, 0], [0, 0, 2], [-2, 2, -2]] {
            assert_eq!(position(1, beyond), Err(2));
            assert!(position(2, beyond).is_ok());
        }
    }

    #[test]
    fn lines_are_those_of_the_runs() {
        assert_eq!(text(0).unwrap(), "0\t0\t0\t0\t0\tsettled\n");
        assert_eq!(text(8).unwrap().len(), 92_706);
        for b in 0..=MOST_SIZE {
            let text = text(b).unwrap();
            assert_eq!(text.lines().count() as i128, (2 * b + 1).pow(3));
            for (panel, line) in panels(b).unwrap().into_iter().zip(text.lines()) {
                let [a_11, a_12, a_22] = panel;
                let run = solve(2, &[a_11, a_12, a_12, a_22], 16, 0).unwrap();
                let (sweeps, m, outcome) = (run.sweeps, run.m, run.outcome.word());
                let expected = format!("{a_11}\t{a_12}\t{a_22}\t{sweeps}\t{m}\t{outcome}");
                assert_eq!(line, expected);
                // Nothing is loose where a_12 is 0; elsewhere a sweep is made, of at most one turn.
                assert_eq!(sweeps == 0, a_12 == 0);
                assert!(0 <= m && m <= sweeps);
            }
        }
    }

    #[test]
    fn the_program_takes_one_number() {
        let ones = "1".repeat(200_000);
        let long = format!("-{ones}");
        let zero = format!("0{ones}");
        let letter = format!("{ones}x");
        for (arguments, printed) in [
            (&[][..], "?\n"),
            (&["1", "1"], "?\n"),
            (&["1", ""], "?\n"),
            (&[""], "?\n"),
            (&["-"], "?\n"),
            (&["-0"], "?\n"),
            (&["00"], "?\n"),
            (&["01"], "?\n"),
            (&["-01"], "?\n"),
            (&["+1"], "?\n"),
            (&[" 1"], "?\n"),
            (&["1 "], "?\n"),
            (&["1\n"], "?\n"),
            (&["--1"], "?\n"),
            (&["1.0"], "?\n"),
            (&[&zero], "?\n"),
            (&[&letter], "?\n"),
            (&["-1"], "X\t2\n"),
            (&["9"], "X\t2\n"),
            (&["10"], "X\t2\n"),
            (&["18446744073709551616"], "X\t2\n"),
            (&["18446744073709551617"], "X\t2\n"),
            (&[&ones], "X\t2\n"),
            (&[&long], "X\t2\n"),
            (&["0"], "0\t0\t0\t0\t0\tsettled\n"),
        ] {
            assert_eq!(program(arguments), printed);
        }
        assert_eq!(program(&["8"]), text(8).unwrap());
    }
}
