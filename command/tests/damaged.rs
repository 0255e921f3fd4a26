//! Damaged files: each is refused with its line, in words, with status 1 and nothing printed; and no text makes the command panic.

mod running;

use running::{run, GOOD};

/// A text, the line that must be named, and a word of why.
struct Damaged {
    text: Vec<u8>,
    line: usize,
    why: &'static str,
}

fn damaged(text: impl Into<Vec<u8>>, line: usize, why: &'static str) -> Damaged {
    let text = text.into();
    Damaged { text, line, why }
}

/// The good text with field `at`, from 0, of a line replaced.
fn with_field(line: usize, at: usize, field: &str) -> String {
    let lines = (1..).zip(GOOD.lines()).map(|(number, text)| {
        let mut fields: Vec<&str> = text.split(',').collect();
        if number == line {
            fields[at] = field;
        }
        fields.join(",") + "\n"
    });
    lines.collect()
}

/// The good text with a line replaced.
fn with_line(line: usize, new: &str) -> String {
    let lines = (1..).zip(GOOD.lines());
    lines
        .map(|(number, text)| if number == line { new } else { text }.to_string() + "\n")
        .collect()
}

/// Fields that are no counts, in every column of numbers, on lines of their own.
fn bad_fields() -> Vec<Damaged> {
    let mut all = Vec::new();
    let no_numbers = [
        "-1", "+5", "12.5", "1e3", "0x1F", "n/a", "1 000", "1'000", "8O2", "#REF!", "٣", "--",
        "1-2", "NaN", "5%", "\"1,5\"", "<5", "½",
    ];
    for (turn, field) in no_numbers.into_iter().enumerate() {
        let line = 2 + turn % 8;
        for at in 1..5 {
            all.push(damaged(
                with_field(line, at, field),
                line,
                "no whole number",
            ));
        }
    }
    for line in [2, 5, 9] {
        for at in 1..5 {
            all.push(damaged(with_field(line, at, ""), line, "empty"));
            all.push(damaged(with_field(line, at, "  "), line, "empty"));
            all.push(damaged(
                with_field(line, at, "99999999999999999999999"),
                line,
                "outside",
            ));
            all.push(damaged(with_field(line, at, "65536"), line, "outside"));
        }
        all.push(damaged(with_field(line, 1, "0"), line, "outside 1 to 100"));
        all.push(damaged(
            with_field(line, 1, "101"),
            line,
            "outside 1 to 100",
        ));
    }
    all
}

/// Rows and headers that are wrong as a whole.
fn bad_rows() -> Vec<Damaged> {
    let header = GOOD.lines().next().expect("a header");
    let row = "A9,5,1,2,3\n";
    let many = |number: usize| format!("{header}\n{}", row.repeat(number));
    let wide = format!(
        "dilution{}\n",
        (1..=9).map(|at| format!(",c{at}")).collect::<String>()
    );
    vec![
        damaged("", 1, "empty"),
        damaged("\n\n\n", 4, "empty"),
        damaged("\u{feff}", 1, "empty"),
        damaged("one,two\n", 1, "no column `dilution`"),
        damaged(format!("{header}\n"), 1, "no sample"),
        damaged(many(1), 2, "only sample"),
        damaged(many(257), 258, "257th sample"),
        damaged(many(300), 258, "257th sample"),
        damaged(GOOD.replace(',', "\t"), 1, "tabs"),
        damaged(GOOD.replace(',', "|"), 1, "neither"),
        damaged(with_line(4, "A3,5,938,266"), 4, "4 fields"),
        damaged(with_line(4, "A3,5,938,266,1093,7"), 4, "6 fields"),
        damaged(with_line(4, "A3,5,938,266,1093,"), 4, "6 fields"),
        damaged(with_line(9, "A8;1;2773;842;6421"), 9, "1 fields"),
        damaged(with_line(6, "A5,\"10,487,139,557"), 6, "never closed"),
        damaged(with_line(6, "A\"5,10,487,139,557"), 6, "quote"),
        damaged(with_line(6, "\"A5\"x,10,487,139,557"), 6, "closing quote"),
        damaged(
            with_line(1, "sample,dilution,nitrate,nitrate,potassium"),
            1,
            "two channels",
        ),
        damaged(
            with_line(1, "sample,dilution,nitrate,,potassium"),
            1,
            "no name",
        ),
        damaged(
            with_line(1, "sample,dilution,dilution,phosphate,potassium"),
            1,
            "two columns",
        ),
        damaged(
            with_line(1, "dilution,sample,nitrate,phosphate,potassium"),
            2,
            "no whole number",
        ),
        damaged(
            with_line(1, "sample,nitrate,phosphate,dilution,potassium"),
            1,
            "1 channel",
        ),
        damaged(
            with_line(1, "sample,nitrate,phosphate,potassium,dilution"),
            1,
            "no channel",
        ),
        damaged(
            with_line(
                1,
                &format!("sample,dilution,{},phosphate,potassium", "n".repeat(41)),
            ),
            1,
            "longer",
        ),
        damaged(
            with_line(1, "sample,dilution,\"nit\nrate\",phosphate,potassium"),
            1,
            "longer",
        ),
        damaged(
            format!("{wide}{}", "1,1,2,3,4,5,6,7,8,9\n".repeat(3)),
            1,
            "9 channels",
        ),
        damaged(&GOOD[header.len() + 1..], 1, "no column `dilution`"),
        damaged(GOOD.replace("A4,10", "A4,\u{0}10"), 5, "control character"),
        damaged(GOOD.replace("A4,", "A\u{7}4,"), 5, "control character"),
        damaged(
            GOOD.replace('\n', "\r\n").replace("A6,5", "A6,x"),
            7,
            "no whole number",
        ),
        damaged(
            GOOD.replace('\n', "\r").replace("A6,5", "A6,x"),
            7,
            "no whole number",
        ),
        damaged(
            GOOD.replace('\n', "\n\n").replace("A6,5", "A6,x"),
            13,
            "no whole number",
        ),
        damaged(
            GOOD.replace("A2", "\"A\n2\"").replace("A6,5", "A6,x"),
            8,
            "no whole number",
        ),
    ]
}

/// Texts that are not UTF-8.
fn bad_bytes() -> Vec<Damaged> {
    let latin = |line: usize, mark: &str| {
        let text = with_field(line, 0, mark);
        let bytes: Vec<u8> = text.chars().map(|c| c as u8).collect();
        damaged(bytes, line, "not UTF-8")
    };
    let wide: Vec<u8> = GOOD.encode_utf16().flat_map(u16::to_le_bytes).collect();
    let marked = |mark: &[u8]| [mark, &wide].concat();
    vec![
        latin(3, "Dünger"),
        latin(9, "é"),
        latin(1, "Prüfung"),
        damaged(marked(b"\xFF\xFE"), 1, "UTF-16"),
        damaged(marked(b"\xFE\xFF"), 1, "UTF-16"),
        damaged(wide, 1, "control character"),
        damaged(vec![0; 1000], 1, "control character"),
        damaged(vec![0xFF; 1000], 1, "UTF-8"),
        damaged(
            b"PK\x03\x04 a spreadsheet that is no CSV".to_vec(),
            1,
            "control character",
        ),
    ]
}

#[test]
fn each_is_refused_with_its_line() {
    let all: Vec<Damaged> = [bad_fields(), bad_rows(), bad_bytes()]
        .into_iter()
        .flatten()
        .collect();
    assert!(all.len() >= 100);
    for file in &all {
        let ended = run(&["report", "-"], &file.text);
        let shown = String::from_utf8_lossy(&file.text);
        assert_eq!(ended.status, Some(1), "{shown}\n{}", ended.complained);
        assert_eq!(ended.printed, "", "{shown}");
        let start = format!("field-axes: standard input: line {}: ", file.line);
        assert!(
            ended.complained.starts_with(&start),
            "{shown}\n{} is not {start}",
            ended.complained
        );
        assert!(
            ended.complained.contains(file.why),
            "{shown}\n{} has no `{}`",
            ended.complained,
            file.why
        );
    }
    println!("{} damaged files, each refused with its line", all.len());
}

/// A generator of bytes that depends on a seed alone.
fn next(state: &mut u64) -> usize {
    *state = state
        .wrapping_mul(6_364_136_223_846_793_005)
        .wrapping_add(1_442_695_040_888_963_407);
    (*state >> 33) as usize
}

#[test]
fn no_text_makes_it_panic() {
    let marks: [&[u8]; 10] = [
        b",",
        b";",
        b"\"",
        b"\n",
        b"\r",
        b"\0",
        b"\xFF",
        b"-",
        b"9",
        "ü".as_bytes(),
    ];
    let mut state = 1;
    for _ in 0..600 {
        let mut text = GOOD.as_bytes().to_vec();
        for _ in 0..1 + next(&mut state) % 4 {
            let at = next(&mut state) % text.len().max(1);
            match next(&mut state) % 3 {
                0 => text.truncate(at),
                1 => drop(text.splice(
                    at..at,
                    marks[next(&mut state) % marks.len()].iter().copied(),
                )),
                _ => drop(text.splice(
                    at..(at + 1).min(text.len()),
                    marks[next(&mut state) % marks.len()].iter().copied(),
                )),
            }
        }
        let ended = run(&["report", "-"], &text);
        let shown = String::from_utf8_lossy(&text);
        match ended.status {
            Some(0) => assert!(ended.printed.contains("variance"), "{shown}"),
            Some(1) => assert!(
                ended.complained.contains(": line "),
                "{shown}\n{}",
                ended.complained
            ),
            other => panic!("status {other:?}: {shown}\n{}", ended.complained),
        }
    }
}
