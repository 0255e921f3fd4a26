//! Stored jobs at the refusals 1 to 4: every cause, both sides of every range, and the order.

use super::{raw, written, Stored};

/// A good job's lines as fields; most jobs here differ from it in one place.
const LINES: [&[&str]; 4] = [
    &["P", "2", "1", "0"],
    &["S", "1", "0", "1"],
    &["S", "1", "1", "0"],
    &["E", "2"],
];

/// The number fields: what each is, its line and its place in it.
const NUMBERS: [(&str, usize, usize); 7] = [
    ("n", 0, 1),
    ("limit", 0, 2),
    ("tolerance", 0, 3),
    ("dilution", 1, 1),
    ("first count", 1, 2),
    ("last count", 2, 3),
    ("E's number", 3, 1),
];

/// The fields that are no number, and why. `/` and `:` stand beside the digits in ASCII.
const NO_NUMBERS: [(&str, &str); 14] = [
    ("empty", ""),
    ("minus", "-1"),
    ("minus zero", "-0"),
    ("plus", "+2"),
    ("sign alone", "-"),
    ("letter", "x"),
    ("letter after a digit", "2x"),
    ("byte below the digits", "2/"),
    ("byte above the digits", ":2"),
    ("point", "2.0"),
    ("leading zero", "02"),
    ("zero twice", "00"),
    ("eight digits", "10000000"),
    ("eight digits with leading zeros", "00000002"),
];

/// Values at the ends of the ranges and beyond, where the good job has another value: it has the least n, limit,
/// tolerance, dilution and counts. E's number has no range.
const RANGES: [(&str, &[&str]); 7] = [
    ("n", &["0", "1", "8", "9", "9999999"]),
    ("limit", &["0", "16", "17", "9999999"]),
    ("tolerance", &["1", "1048576", "1048577", "9999999"]),
    ("dilution", &["0", "100", "101", "9999999"]),
    ("first count", &["65535", "65536", "9999999"]),
    ("last count", &["65535", "65536", "9999999"]),
    ("E's number", &["0", "1", "3", "9999999"]),
];

pub fn jobs() -> Vec<Stored> {
    [
        vec![changed("good".to_string(), 0, |_| ())],
        cut(),
        wrong_tags(),
        wrong_field_counts(),
        no_numbers(),
        ranges(),
        lines_and_bytes(),
        order(),
    ]
    .into_iter()
    .flatten()
    .collect()
}

fn text_of(lines: &[Vec<String>]) -> Vec<u8> {
    lines
        .iter()
        .flat_map(|fields| (fields.join("\t") + "\n").into_bytes())
        .collect()
}

/// The good job, with one line changed.
fn changed(name: String, line: usize, change: impl Fn(&mut Vec<String>)) -> Stored {
    let mut lines = LINES.map(|fields| fields.iter().map(|field| field.to_string()).collect());
    change(&mut lines[line]);
    raw(name, &text_of(&lines))
}

/// Every beginning of the good job: no line feed, or a line that is missing.
fn cut() -> Vec<Stored> {
    let text = changed(String::new(), 0, |_| ()).text;
    (0..text.len())
        .map(|length| raw(format!("cut to {length} bytes"), &text[..length]))
        .collect()
}

fn wrong_tags() -> Vec<Stored> {
    [
        (0, &["S", "E", "p", "PP", "", "\u{b2}"][..]),
        (1, &["P", "E", "s", "SS", "X", ""]),
        (2, &["P", "E", "s"]),
        (3, &["P", "S", "e", "EE", ""]),
    ]
    .into_iter()
    .flat_map(|(line, tags)| {
        tags.iter().map(move |tag| {
            changed(
                format!("tag {tag:?} in line {}", line + 1),
                line,
                |fields| fields[0] = tag.to_string(),
            )
        })
    })
    .collect()
}

fn wrong_field_counts() -> Vec<Stored> {
    (0..LINES.len())
        .flat_map(|line| {
            let name = |what: &str| format!("{what} in line {}", line + 1);
            [
                changed(name("a field too few"), line, |fields| drop(fields.pop())),
                changed(name("a field too many"), line, |fields| {
                    fields.push("1".to_string())
                }),
                changed(name("a tab at the end"), line, |fields| {
                    fields.push(String::new())
                }),
                changed(name("a tab twice"), line, |fields| {
                    fields.insert(1, String::new())
                }),
            ]
        })
        .collect()
}

fn no_numbers() -> Vec<Stored> {
    NUMBERS
        .iter()
        .flat_map(|&(field, line, place)| {
            NO_NUMBERS.iter().map(move |&(why, text)| {
                changed(format!("{field}: {why}"), line, |fields| {
                    fields[place] = text.to_string()
                })
            })
        })
        .collect()
}

fn ranges() -> Vec<Stored> {
    NUMBERS
        .iter()
        .zip(RANGES)
        .flat_map(|(&(field, line, place), (ranged, values))| {
            assert_eq!(field, ranged);
            values.iter().map(move |value| {
                changed(format!("{field} {value}"), line, |fields| {
                    fields[place] = value.to_string()
                })
            })
        })
        .collect()
}

/// What parts lines and fields, and what follows E's line.
fn lines_and_bytes() -> Vec<Stored> {
    let good = "P 2 1 0\nS 1 0 1\nS 1 1 0\nE 2\n";
    let after = |bytes: &[u8]| [good.replace(' ', "\t").as_bytes(), bytes].concat();
    vec![
        raw("blanks for tabs", good.as_bytes()),
        raw("a blank before a number", b"P\t 2\t1\t0\n"),
        raw("a blank after a number", b"P\t2\t1\t0 \n"),
        written("carriage returns", &good.replace('\n', "\r\n")),
        written("tabs for line feeds", &good.replace('\n', " ")),
        written("a line feed before the first line", &format!("\n{good}")),
        written("empty second line", "P 2 1 0\n\nS 1 0 1\nS 1 1 0\nE 2\n"),
        written("empty line before E", "P 2 1 0\nS 1 0 1\nS 1 1 0\n\nE 2\n"),
        written("no P", "S 1 0 1\nS 1 1 0\nE 2\n"),
        written("two P", "P 2 1 0\nP 2 1 0\nS 1 0 1\nS 1 1 0\nE 2\n"),
        written("line feed alone", "\n"),
        raw("byte 0 for a digit", b"P\t2\t1\t\x00\n"),
        raw("byte 255 for a digit", b"P\t2\t1\t\xff\n"),
        raw("a digit's byte plus 128", b"P\t2\t1\t\xb0\n"),
        raw("line feed after E's line", &after(b"\n")),
        raw("letter after E's line", &after(b"x")),
        raw("byte 0 after E's line", &after(b"\x00")),
        raw("two E", &after(b"E\t2\n")),
        raw("a sample after E's line", &after(b"S\t1\t1\t1\n")),
        written("E after no sample", "P 2 1 0\nE 0\n"),
        written("E after 1 sample", "P 2 1 0\nS 1 0 1\nE 1\n"),
        written(
            "counts of 8 channels where n is 2",
            "P 2 1 0\nS 1 0 0 0 0 0 0 0 0\n",
        ),
        written("counts of 2 channels where n is 8", "P 8 1 0\nS 1 0 0\n"),
        written("tags alone", "P\nS\nS\nE\n"),
        written("S alone", "P 2 1 0\nS\nS 1 1 0\nE 2\n"),
    ]
}

/// "lines from the first; in a line 1, then 2, then 3, then 4"
fn order() -> Vec<Stored> {
    vec![
        written("1 before 2: n 9, a field too few", "P 9 1\n"),
        written("1 before 2: n 9, limit 01", "P 9 01 0\n"),
        written("1 before 2: n 9, no line feed", "P 9 1 0"),
        written(
            "1 before 2: tolerance too large, a letter after it",
            "P 2 1 1048577 x\n",
        ),
        written("1 before 2: dilution 0, a letter", "P 2 1 0\nS 0 1 x\n"),
        written(
            "1 before 2: count 65536, a field too many",
            "P 2 1 0\nS 1 65536 1 1\n",
        ),
        written(
            "1 before 3: E after no sample, two numbers",
            "P 2 1 0\nE 0 0\n",
        ),
        written(
            "1 before 3: E after 1 sample, no line feed",
            "P 2 1 0\nS 1 0 1\nE 1",
        ),
        written(
            "1 before 4: E's number 03",
            "P 2 1 0\nS 1 0 1\nS 1 1 0\nE 03\n",
        ),
        written(
            "1 before 4: E's number wrong, no line feed",
            "P 2 1 0\nS 1 0 1\nS 1 1 0\nE 3",
        ),
        written("3 before 4: E after no sample, number 7", "P 2 1 0\nE 7\n"),
        written(
            "3 before 4: E after 1 sample, number 2",
            "P 2 1 0\nS 1 0 1\nE 2\n",
        ),
        written(
            "3 before 4: E after 1 sample, a letter follows",
            "P 2 1 0\nS 1 0 1\nE 1\nx",
        ),
        written("4 for both causes", "P 2 1 0\nS 1 0 1\nS 1 1 0\nE 3\n\n"),
        written("line 1 first: n 9, then a malformed line", "P 9 1 0\nX\n"),
        written(
            "line 2 first: count 65536, then a malformed line",
            "P 2 1 0\nS 1 65536 0\nX\n",
        ),
        written(
            "line 2 first: a letter, then count 65536",
            "P 2 1 0\nS 1 0 x\nS 1 65536 0\nE 9\n",
        ),
        written(
            "line 3 first: dilution 101, then E wrong",
            "P 2 1 0\nS 1 0 1\nS 101 1 0\nE 9\nx",
        ),
    ]
}
