//! Random inputs of the programs, good or damaged, the same for the same seed.

use crate::calls::MOST_NUMBERS;
use crate::matrix::Matrix;
use crate::random::Random;
use crate::record::{Record, BENCHES, ENTRY_LIMIT, TOLERANCE_LIMIT};
use crate::samples::samples;

/// The tags of both sweeps: cyclic and in tournament order.
const SWEEPS: [&str; 2] = ["W", "O"];

/// A text as its lines' fields.
type Lines = Vec<Vec<String>>;

pub fn job_text(seed: u64) -> Vec<u8> {
    job(&mut Random::new(seed))
}

pub fn calls_text(seed: u64) -> Vec<u8> {
    calls(&mut Random::new(seed))
}

/// The text of calls and further ones, some of them refused, exactly `size` bytes together. A line of them is a call, and has at
/// most a hundredth of the bytes, so that they are many.
pub fn with_calls(mut text: Vec<u8>, size: usize, seed: u64) -> Vec<u8> {
    /// The lengths of `Q` lines, with tolerances of 2 to 7 digits, of which one comes last.
    const LAST: std::ops::RangeInclusive<usize> = 7..=12;
    let random = &mut Random::new(seed);
    'texts: loop {
        for fields in any_or_used_up(random) {
            let line = joined(&vec![fields]);
            if line.len() > size / 100 {
                continue;
            }
            if text.len() + line.len() + LAST.start() > size {
                break 'texts;
            }
            text.extend(line);
        }
    }
    while size - text.len() > *LAST.end() {
        text.extend(b"A\t2\t1\n");
    }
    let digits = size - text.len() - b"Q\t3\t\n".len();
    let tolerance = 10i128.pow(digits as u32 - 1);
    text.extend(joined(&vec![fields("Q", &[3, tolerance])]));
    text
}

/// Job text, about half of it good.
fn job(random: &mut Random) -> Vec<u8> {
    let k = match random.between(0, 11) {
        0 => 256,
        1..=3 => 2,
        4..=7 => random.between(2, 8),
        _ => random.sized(256).max(2),
    };
    let mut lines = job_lines(random, k);
    if random.one_in(2) {
        return joined(&lines);
    }
    match random.between(0, 3) {
        0 | 1 => {
            damage_job(random, &mut lines);
            joined(&lines)
        }
        2 => damaged_lines(random, lines, 7),
        _ => damaged_bytes(random, joined(&lines), 16_384),
    }
}

/// The lines of a good job, if k is from 2 to 256.
fn job_lines(random: &mut Random, k: i128) -> Lines {
    let n = random.between(2, 8);
    let any_limit = random.between(1, 16);
    let limit = random.pick(&[1, 2, 16, any_limit]);
    let any_tolerance = random.sized(TOLERANCE_LIMIT);
    let tolerance = random.pick(&[0, 0, 1, TOLERANCE_LIMIT, any_tolerance, any_tolerance]);
    let mut lines = vec![fields("P", &[n, limit, tolerance])];
    for sample in samples(random, n as usize, k as usize) {
        lines.push(fields(
            "S",
            &[&[sample.dilution], &sample.counts[..]].concat(),
        ));
    }
    lines.push(fields("E", &[k]));
    lines
}

/// A damage of one of the kinds that document 01's refusals 2, 3 and 4 name, or of two.
fn damage_job(random: &mut Random, lines: &mut Lines) {
    match random.between(0, 6) {
        0 => {
            let place = random.index(3) + 1;
            lines[0][place] = random
                .pick(
                    [
                        &[0, 1, 9, 9_999_999],
                        &[0, 17, 100, 9_999_999],
                        &[1_048_577, 1_048_576, 2_000_000, 9_999_999],
                    ][place - 1],
                )
                .to_string();
        }
        1 => out_of_range(random, lines),
        2 => wrong_end(random, lines),
        3 => {
            let k = random.pick(&[0, 1, 257]);
            *lines = job_lines(random, k);
        }
        4 => {
            *lines = job_lines(random, 257);
            match random.between(0, 2) {
                0 => lines[257][1] = "101".to_string(),
                1 => lines[257].push("0".to_string()),
                _ => lines.truncate(257),
            }
        }
        5 => {
            let k = random.pick(&[0, 1]);
            *lines = job_lines(random, k);
            wrong_end(random, lines);
        }
        _ => {
            out_of_range(random, lines);
            wrong_end(random, lines);
        }
    }
}

/// A dilution or a count of some sample beyond its range, or at its end.
fn out_of_range(random: &mut Random, lines: &mut Lines) {
    let line = random.between(1, lines.len() as i128 - 2) as usize;
    if random.one_in(3) {
        lines[line][1] = random.pick(&[0, 100, 101, 9_999_999]).to_string();
    } else {
        let place = random.between(2, lines[line].len() as i128 - 1) as usize;
        lines[line][place] = random.pick(&[65_535, 65_536, 9_999_999]).to_string();
    }
}

/// Another number in the last line, or a line after it.
fn wrong_end(random: &mut Random, lines: &mut Lines) {
    let last = lines.len() - 1;
    let k = last as i128 - 1;
    match random.between(0, 2) {
        0 => {
            lines[last][1] = random
                .pick(&[(k - 1).max(0), k + 1, 0, 9_999_999])
                .to_string()
        }
        1 => lines.push(vec![String::new()]),
        _ => lines.push(lines[random.index(last + 1)].clone()),
    }
}

/// A text of calls, about half of it of calls throughout; some of these are refused.
fn calls(random: &mut Random) -> Vec<u8> {
    let lines = any_or_used_up(random);
    if random.one_in(2) {
        return joined(&lines);
    }
    if random.one_in(3) {
        damaged_bytes(random, joined(&lines), 65_536)
    } else {
        damaged_lines(random, lines, 10)
    }
}

fn any_or_used_up(random: &mut Random) -> Lines {
    if random.one_in(8) {
        used_up(random)
    } else {
        any_calls(random)
    }
}

fn any_calls(random: &mut Random) -> Lines {
    let mut lines = Vec::new();
    let mut n = random.between(2, 8);
    let careful = random.one_in(2);
    if careful {
        let load = match random.one_in(2) {
            true => good_load(random, n),
            false => good_sample_load(random, n),
        };
        lines.push(by(bench(random), load));
    }
    for _ in 0..random.between(0, 60) {
        let wild = !careful && random.one_in(3);
        let bench = match careful {
            true => bench(random),
            false => any_bench(random),
        };
        let call = match random.between(0, 21) {
            0 => {
                n = random.between(2, 8);
                good_load(random, n)
            }
            20 => {
                n = random.between(2, 8);
                good_sample_load(random, n)
            }
            1 if !careful => refused_load(random),
            21 if !careful => refused_sample_load(random),
            2..=5 => fields(random.pick(&SWEEPS), &[]),
            6..=8 => {
                let t = if wild {
                    random.pick(&[1_048_576, 1_048_577, 9_999_999_999, 10_000_000_000, -1])
                } else {
                    random.sized(TOLERANCE_LIMIT)
                };
                fields("Q", &[t])
            }
            9..=13 => {
                let i = if wild {
                    random.pick(&[0, n + 1, 9, 9_999_999_999, -1, 1 << 64])
                } else {
                    random.between(1, n)
                };
                fields("A", &[i])
            }
            _ => {
                let p = random.between(1, n - 1);
                let q = random.between(p + 1, n);
                let (p, q) = if wild {
                    random.pick(&[
                        (0, q),
                        (q, p),
                        (p, p),
                        (p, n + 1),
                        (0, 0),
                        (9_999_999_999, q),
                        (-1, q),
                        (p, 10_000_000_000),
                    ])
                } else {
                    (p, q)
                };
                fields("T", &[p, q])
            }
        };
        lines.push(by(bench, call));
    }
    lines
}

fn bench(random: &mut Random) -> i128 {
    random.between(1, BENCHES as i128)
}

/// Now and then one outside 1 to 4; of these some are one of the four in fewer bits.
fn any_bench(random: &mut Random) -> i128 {
    if !random.one_in(8) {
        return bench(random);
    }
    random.pick(&[
        0,
        5,
        -1,
        -4,
        257,
        (1 << 32) + 1,
        9_999_999_999,
        10_000_000_000,
        (1 << 64) + 2,
        -(1 << 64),
    ])
}

/// Calls that use up the turns: a matrix of small numbers, on which rounding keeps some pairs turning, swept and turned
/// until a sweep, then a turn is refused, with other calls after that. Where the matrix comes to rest the text is one of
/// many idle sweeps.
fn used_up(random: &mut Random) -> Lines {
    let n = random.between(6, 8);
    let matrix = symmetric(random, n as usize, |random, _, _| random.between(-1, 1));
    let mut record = Record::fresh();
    let loading = bench(random);
    record
        .load(loading, n, matrix.numbers())
        .expect("small numbers");
    let mut lines = vec![by(loading, load_fields(n, matrix.numbers()))];
    for _ in 0..400 {
        let tag = random.pick(&SWEEPS);
        let bench = bench(random);
        lines.push(fields(tag, &[bench]));
        let swept = match tag {
            "W" => record.sweep(bench),
            _ => record.tournament_sweep(bench),
        };
        if swept.is_err() {
            break;
        }
    }
    let pairs: Vec<(i128, i128)> = (1..=n)
        .flat_map(|p| (p + 1..=n).map(move |q| (p, q)))
        .collect();
    for &(p, q) in pairs.iter().cycle().take(40 * pairs.len()) {
        let bench = bench(random);
        match record.turn(bench, p, q) {
            Ok(false) => {}
            Ok(true) => lines.push(fields("T", &[bench, p, q])),
            Err(_) => {
                lines.push(fields("T", &[bench, p, q]));
                break;
            }
        }
    }
    for (tag, numbers) in [
        ("W", &[][..]),
        ("O", &[]),
        ("T", &[2, 1]),
        ("A", &[1]),
        ("A", &[0]),
        ("Q", &[0]),
        ("Q", &[1_048_577]),
        ("T", &[1, 2]),
    ] {
        if random.one_in(2) {
            lines.push(by(any_bench(random), fields(tag, numbers)));
        }
    }
    lines
}

fn good_load(random: &mut Random, n: i128) -> Vec<String> {
    let kind = random.between(0, 6);
    let matrix = symmetric(random, n as usize, |random, i, j| match kind {
        0 => random.between(-1, 1),
        1 => 1,
        2 => random.pick(&[-ENTRY_LIMIT, ENTRY_LIMIT]),
        3 => random.between(-ENTRY_LIMIT, ENTRY_LIMIT) * i128::from(i == j),
        4 if i == j => random.between(-ENTRY_LIMIT, ENTRY_LIMIT),
        4 => random.between(-2, 2),
        5 => random.between(-ENTRY_LIMIT, ENTRY_LIMIT),
        _ => random.spread(ENTRY_LIMIT),
    });
    load_fields(n, matrix.numbers())
}

/// A load that one or more of the refusals 5 to 8 apply to.
fn refused_load(random: &mut Random) -> Vec<String> {
    let n = random.between(2, 8);
    let mut numbers = symmetric(random, n as usize, |random, _, _| random.between(-9, 9))
        .numbers()
        .to_vec();
    let place = random.index(numbers.len());
    let beyond = random.pick(&[
        ENTRY_LIMIT + 1,
        -ENTRY_LIMIT - 1,
        9_999_999_999,
        -9_999_999_999,
        10_000_000_000,
        -(1 << 64),
    ]);
    match random.between(0, 5) {
        0 => {
            let n = random.pick(&[0, 1, 9, 10, 9_999_999_999, 10_000_000_000, -1, -2]);
            let count = (n * n).min(100) as usize;
            return load_fields(n, &vec![beyond; count]);
        }
        1 => {
            let count = random.pick(&[
                0,
                1,
                (n * n - 1) as usize,
                (n * n + 1) as usize,
                100,
                MOST_NUMBERS - 2,
                MOST_NUMBERS - 1,
            ]);
            numbers.resize(count, beyond);
        }
        2 => numbers[place] = beyond,
        3 => numbers[0] = beyond,
        4 => numbers[1] += 1,
        _ => {
            numbers[1] += 1;
            numbers[place] = beyond;
        }
    }
    load_fields(n, &numbers)
}

/// n, k, the dilutions and the counts of samples, of which some lines are long.
fn good_sample_load(random: &mut Random, n: i128) -> Vec<String> {
    let k = match random.between(0, 20) {
        0 => 256,
        1..=6 => 2,
        7 => random.sized(256).max(2),
        _ => random.between(2, 6),
    };
    let (dilutions, counts) = handed_over(random, n, k);
    sample_load_fields(n, &dilutions, &counts)
}

/// A load of samples that one or more of the refusals 2, 6 and 3 apply to, or that is at the end of a range.
fn refused_sample_load(random: &mut Random) -> Vec<String> {
    let mut n = random.between(2, 8);
    let k = random.pick(&[0, 1, 2, 2, 3, 3, 3, 3, 257]);
    let (mut dilutions, mut counts) = handed_over(random, n, k);
    for _ in 0..random.between(1, 2) {
        match random.between(0, 5) {
            0 => n = random.pick(&[0, 1, 8, 9, -1, -2, 9_999_999_999, 10_000_000_000]),
            1 if !dilutions.is_empty() => {
                let place = random.index(dilutions.len());
                dilutions[place] = random.pick(&[0, 100, 101, -1, 9_999_999_999, -(1 << 64)]);
            }
            2 if !counts.is_empty() => {
                let place = random.index(counts.len());
                counts[place] = random.pick(&[65_535, 65_536, -1, 9_999_999_999, 1 << 64]);
            }
            3 => drop(counts.pop()),
            4 => counts.push(random.pick(&[0, 65_536])),
            _ => {
                let most = MOST_NUMBERS - 3 - dilutions.len();
                counts.resize(random.pick(&[0, 1, 2048, most]), 0);
            }
        }
    }
    sample_load_fields(n, &dilutions, &counts)
}

fn handed_over(random: &mut Random, n: i128, k: i128) -> (Vec<i128>, Vec<i128>) {
    let samples = samples(random, n as usize, k as usize);
    let dilutions = samples.iter().map(|sample| sample.dilution).collect();
    let counts = samples.iter().flat_map(|sample| sample.counts.clone());
    (dilutions, counts.collect())
}

fn symmetric(
    random: &mut Random,
    n: usize,
    entry: impl Fn(&mut Random, usize, usize) -> i128,
) -> Matrix {
    let mut matrix = Matrix::by_rule(n, |_, _| 0);
    for i in 1..=n {
        for j in i..=n {
            let number = entry(random, i, j);
            matrix.set(i, j, number);
            matrix.set(j, i, number);
        }
    }
    matrix
}

/// The text with one or two of its lines damaged, where a number has at most `most_digits` digits.
fn damaged_lines(random: &mut Random, mut lines: Lines, most_digits: usize) -> Vec<u8> {
    for _ in 0..random.between(1, 2) {
        if lines.is_empty() {
            break;
        }
        let last = lines.len() - 1;
        let any = random.index(lines.len());
        let line = random.pick(&[0, last, any, any]);
        damage_line(random, &mut lines, line, most_digits);
    }
    joined(&lines)
}

fn damage_line(random: &mut Random, lines: &mut Lines, line: usize, most_digits: usize) {
    let place = random.index(lines[line].len());
    let gap = random.index(lines[line].len() + 1);
    let other = random.index(lines.len());
    let single = lines[line].len() == 1;
    // The number of samples at its own bound: as many dilutions as numbers follow it, one more, and others.
    if lines[line][0] == "M" && lines[line].len() > 3 && random.one_in(3) {
        let after = lines[line].len() as i128 - 4;
        let k = random.pick(&[after, after + 1, 0, -1, 9_999_999_999, 10_000_000_000]);
        lines[line][3] = k.to_string();
        return;
    }
    let field = &mut lines[line][place];
    match random.between(0, 13) {
        0 => {
            lines[line][0] = random
                .pick(&[
                    "P", "S", "E", "L", "M", "T", "W", "O", "Q", "A", "X", "", "s", "SS",
                ])
                .to_string()
        }
        1 if !single => drop(lines[line].remove(place)),
        2 => lines[line].push("1".to_string()),
        3 => lines[line].insert(gap, String::new()),
        4 => field.insert(0, '0'),
        5 => *field = "1".repeat(most_digits + 1),
        6 => *field = "9".repeat(most_digits),
        7 => field.insert(0, random.pick(&['-', '+', ' '])),
        8 => {
            *field = random
                .pick(&["-0", "", "-", "x", "1.5", "1 ", "1e3", "0x1"])
                .to_string()
        }
        9 => drop(lines.remove(line)),
        10 => lines.insert(line, lines[other].clone()),
        11 => lines.swap(line, other),
        12 => lines.insert(line, vec![String::new()]),
        _ => field.push('\r'),
    }
}

/// The bytes cut, changed or followed by others; at most `limit` of them are read.
fn damaged_bytes(random: &mut Random, mut bytes: Vec<u8>, limit: usize) -> Vec<u8> {
    let at = random.index(bytes.len().max(1)).min(bytes.len());
    let any = random.between(0, 255) as u8;
    let byte = random.pick(&[
        b'\t', b'\n', b'0', b'1', b'9', b'-', b' ', b'\r', 0, 255, any, any,
    ]);
    match random.between(0, 8) {
        0 | 1 => bytes.truncate(at),
        2 | 3 if !bytes.is_empty() => bytes[at] = byte,
        4 => bytes.insert(at, byte),
        5 if !bytes.is_empty() => drop(bytes.remove(at)),
        6 => drop(bytes.pop()),
        7 => bytes.push(byte),
        _ => bytes.resize(limit + random.index(3) - 1, byte),
    }
    bytes
}

fn fields(tag: &str, numbers: &[i128]) -> Vec<String> {
    std::iter::once(tag.to_string())
        .chain(numbers.iter().map(i128::to_string))
        .collect()
}

/// The fields of a call with the bench that makes it.
fn by(bench: i128, mut call: Vec<String>) -> Vec<String> {
    call.insert(1, bench.to_string());
    call
}

fn load_fields(n: i128, numbers: &[i128]) -> Vec<String> {
    fields("L", &[&[n], numbers].concat())
}

fn sample_load_fields(n: i128, dilutions: &[i128], counts: &[i128]) -> Vec<String> {
    let k = dilutions.len() as i128;
    fields("M", &[&[n, k], dilutions, counts].concat())
}

fn joined(lines: &Lines) -> Vec<u8> {
    lines
        .iter()
        .flat_map(|fields| (fields.join("\t") + "\n").into_bytes())
        .collect()
}
