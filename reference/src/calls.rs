//! A text of calls, played on one record: one call a line, with the bench that makes it; one line of answer for each.

use crate::record::{Number, Record};
use crate::text::{line, number, tagged, take_line};

/// At most this many bytes are read, and those are played.
pub const TEXT_LIMIT: usize = 65_536;
/// A line has at most this many numbers, the bench among them.
pub const MOST_NUMBERS: usize = 4_096;
/// A number of more digits stands for the greatest one of this many, with its sign.
const DIGITS: usize = 10;
const BEYOND: i128 = 9_999_999_999;

/// Document 01, "The record and its calls", and document 02's tournament sweep and load of samples.
#[derive(Clone, Debug, PartialEq, Eq)]
pub enum Call {
    Load(i128, Vec<i128>),
    /// n, the dilutions, the counts.
    LoadSamples(i128, Vec<i128>, Vec<i128>),
    Turn(i128, i128),
    Sweep,
    TournamentSweep,
    LoosePair(i128),
    Axis(i128),
}

/// The answers, up to the first line that is no call. Where input is left after what is read, the line that was not read whole is none.
pub fn play(input: &[u8]) -> String {
    let mut rest = &input[..input.len().min(TEXT_LIMIT)];
    let left = input.len() > TEXT_LIMIT;
    let mut record = Record::fresh();
    let mut answers = String::new();
    for line in 1.. {
        if rest.is_empty() && !left {
            break;
        }
        let Some(((bench, call), after)) =
            take_line(rest).and_then(|(fields, after)| Some((call(&fields)?, after)))
        else {
            answers += &tagged("?", &[line]);
            break;
        };
        answers += &answer(&mut record, bench, &call)
            .unwrap_or_else(|number| tagged("X", &[&[number], &record.refused()[..]].concat()));
        rest = after;
    }
    answers
}

/// The bench, which comes first after the tag, and the call that a line's fields give. A negative bench, n, dilution, count, p, q, t or i is a
/// value out of its range, which the record refuses.
fn call(fields: &[&[u8]]) -> Option<(i128, Call)> {
    let (tag, fields) = fields.split_first()?;
    if fields.len() > MOST_NUMBERS {
        return None;
    }
    let numbers = fields
        .iter()
        .map(|field| signed(field))
        .collect::<Option<Vec<_>>>()?;
    let (bench, numbers) = numbers.split_first()?;
    let call = match (*tag, numbers) {
        (b"L", [n, numbers @ ..]) => Call::Load(*n, numbers.to_vec()),
        (b"M", [n, k, numbers @ ..]) => {
            // k has no minus, and k dilutions follow it.
            let (dilutions, counts) = numbers.split_at_checked(usize::try_from(*k).ok()?)?;
            Call::LoadSamples(*n, dilutions.to_vec(), counts.to_vec())
        }
        (b"T", [p, q]) => Call::Turn(*p, *q),
        (b"W", []) => Call::Sweep,
        (b"O", []) => Call::TournamentSweep,
        (b"Q", [t]) => Call::LoosePair(*t),
        (b"A", [i]) => Call::Axis(*i),
        _ => return None,
    };
    Some((*bench, call))
}

/// An optional minus and decimal digits, without a leading zero unless it is 0; `-0` is none.
pub fn signed(field: &[u8]) -> Option<i128> {
    match field.strip_prefix(b"-") {
        None => unsigned(field),
        Some(size) => unsigned(size).filter(|&size| size != 0).map(|size| -size),
    }
}

fn unsigned(field: &[u8]) -> Option<i128> {
    if field.len() > DIGITS {
        let digits = field.iter().all(u8::is_ascii_digit) && field[0] != b'0';
        return digits.then_some(BEYOND);
    }
    number(field, DIGITS)
}

/// The line of a call's answer, or the number of its refusal.
fn answer(record: &mut Record, bench: i128, call: &Call) -> Result<String, Number> {
    Ok(match call {
        Call::Load(n, numbers) => {
            record.load(bench, *n, numbers)?;
            line(["L"])
        }
        Call::LoadSamples(n, dilutions, counts) => {
            let e = record.load_samples(bench, *n, dilutions, counts)?;
            tagged("M", &[e.into()])
        }
        Call::Turn(p, q) => tagged("T", &[i128::from(record.turn(bench, *p, *q)?)]),
        Call::Sweep => tagged("W", &[record.sweep(bench)?]),
        Call::TournamentSweep => tagged("O", &[record.tournament_sweep(bench)?]),
        Call::LoosePair(t) => match record.loose_pair(bench, *t)? {
            Some((p, q)) => tagged("Q", &[p as i128, q as i128]),
            None => line(["Q", "none"]),
        },
        Call::Axis(i) => {
            let axis = record.axis(bench, *i)?;
            tagged("A", &[&[axis.a_ii, axis.r_i], &axis.row[..]].concat())
        }
    })
}
