//! What the command answers: the library's numbers, the forms of a CSV, files that are written, and wrong usage.

mod running;

use running::{run, Ended, EXAMPLES, GOOD};
use std::path::{Path, PathBuf};

fn printed(words: &[&str], input: &str) -> String {
    let ended = run(words, input.as_bytes());
    assert_eq!(
        (ended.status, ended.complained.as_str()),
        (Some(0), ""),
        "{words:?}"
    );
    ended.printed
}

/// A file of a test in the system's folder for such, with its name.
fn scratch(name: &str) -> (PathBuf, String) {
    let path = std::env::temp_dir().join(format!("field-axes-{}-{name}", std::process::id()));
    let name = path.to_str().expect("UTF-8").to_string();
    (path, name)
}

#[test]
fn the_numbers_are_the_library_s() {
    let job = printed(
        &["report", "--job", "--limit", "3", "--tolerance=9", "-"],
        GOOD,
    );
    assert!(job.starts_with("P\t3\t3\t9\nS\t5\t812\t231\t1187\n") && job.ends_with("E\t8\n"));
    let raw = printed(
        &["report", "--raw", "--limit=3", "--tolerance", "9", "-"],
        GOOD,
    );
    assert_eq!(Ok(raw), field_axes::report(job.as_bytes()));
    assert_eq!(
        Ok(printed(&["panels", "--raw", "2"], "")),
        field_axes::panels(2)
    );
}

/// The printed example of document 01: S has the rows 50, 25 and 25, 50, so that the variances are a_ii / (1024 × 3 × 2).
#[test]
fn figures_are_converted() {
    let text = "dilution,a,b\n1,0,0\n5,1,0\n1,5,5\n";
    let words = printed(&["report", "--limit", "1", "-"], text);
    // 75776 / 6144 = 12.3333.. and 7172 / 6144 = 1.1673..: printed is 12.33, so that the error is 1.1673.. + 0.0033.. = 1.1706.., rounded up.
    let axis: Vec<&str> = words
        .lines()
        .nth(3)
        .expect("an axis")
        .split_whitespace()
        .collect();
    assert_eq!(
        axis,
        ["2", "12.33", "1.18", "74.0", "%", "0.8000", "0.6000"]
    );
    assert!(words.contains("variances together: 16.67."));
    assert!(words.contains("ended spent"));
    let table = printed(&["table", "--raw", "-"], text);
    assert_eq!(table, "T\t2\t3\t0\nS\t1\t50\t25\nS\t2\t25\t50\n");
}

#[test]
fn an_error_as_large_as_its_figure() {
    let text = "dilution,a,b,c\n1,10,20,1\n1,20,40,1\n1,35,70,1\n";
    let words = printed(&["report", "-"], text);
    // b is twice a, and c never varies: the samples vary along one axis alone.
    let undetermined = words
        .lines()
        .filter(|line| line.ends_with("not determined"))
        .count();
    assert_eq!(undetermined, 2, "{words}");
    assert!(
        words.contains("Axes 3 and 1 are no further apart"),
        "{words}"
    );
    // Samples that are all the same vary by 0 exactly.
    let equal = printed(&["report", "-"], "dilution,a,b\n1,7,7\n1,7,7\n");
    assert!(
        !equal.contains("not determined") && equal.contains("ended settled"),
        "{equal}"
    );
}

#[test]
fn forms_of_a_csv() {
    let raw = printed(&["report", "--raw", "-"], GOOD);
    let quoted: String = GOOD
        .lines()
        .map(|line| format!("\"{}\"\n", line.replace(',', "\",\"")))
        .collect();
    for text in [
        GOOD.replace(',', ";"),
        GOOD.replace('\n', "\r\n"),
        GOOD.replace('\n', "\r"),
        format!("\u{feff}{GOOD}"),
        format!("\n\n{GOOD}\n,,,,\n"),
        GOOD.trim_end().to_string(),
        GOOD.replace(',', " , "),
        GOOD.replace("dilution", "Dilution"),
        quoted,
    ] {
        assert_eq!(printed(&["report", "--raw", "-"], &text), raw, "{text}");
    }
}

#[test]
fn columns() {
    let raw = printed(&["report", "--raw", "-"], GOOD);
    // Channels to the left of `dilution`, and a label to the right of it.
    let moved: String = GOOD
        .lines()
        .map(|line| {
            let fields: Vec<&str> = line.split(',').collect();
            format!(
                "{},{},{},{},{}\n",
                fields[2], fields[3], fields[4], fields[1], fields[0]
            )
        })
        .collect();
    let words = [
        "report",
        "--raw",
        "--channels",
        "nitrate,phosphate,potassium",
        "-",
    ];
    assert_eq!(printed(&words, &moved), raw);
    let remark: String = GOOD.lines().map(|line| format!("{line},7\n")).collect();
    let remark = remark.replace("potassium,7", "potassium,remark");
    assert_eq!(
        printed(&["report", "--raw", "--labels", "remark", "-"], &remark),
        raw
    );
    assert!(printed(&["report", "-"], GOOD).contains("labels: sample\n"));
    for (words, why) in [
        (["--channels", "nitrate,boron"], "no column `boron`"),
        (
            ["--channels", "nitrate,dilution"],
            "`dilution` is no channel",
        ),
        (["--channels", "nitrate,nitrate"], "two channels"),
        (["--labels", "boron"], "no column `boron`"),
    ] {
        let ended = run(&["report", words[0], words[1], "-"], GOOD.as_bytes());
        assert_eq!(ended.status, Some(1));
        assert!(
            ended.complained.contains(why) && ended.complained.contains("line 1"),
            "{}",
            ended.complained
        );
    }
}

#[test]
fn picture_and_sheet() {
    let (svg, svg_name) = scratch("picture.svg");
    let (html, html_name) = scratch("sheet.html");
    let channel = "<script>alert(1)</script> & \"K\"";
    let text = GOOD.replace("nitrate", &format!("\"{}\"", channel.replace('"', "\"\"")));
    let words = [
        "report",
        "--svg",
        &svg_name,
        "--html",
        &html_name,
        "--field",
        "Long <Meadow>",
        "--date",
        "4 May 2026",
        "-",
    ];
    printed(&words, &text);
    let picture = std::fs::read_to_string(&svg).expect("a picture");
    let sheet = std::fs::read_to_string(&html).expect("a sheet");
    let _ = (std::fs::remove_file(&svg), std::fs::remove_file(&html));
    assert!(picture.starts_with("<?xml") && picture.ends_with("</svg>\n"));
    for text in [&picture, &sheet] {
        let text = text.replace("xmlns=\"http://www.w3.org/2000/svg\"", "");
        for loaded in [
            "<script", "href", "src=", "url(", "@import", "http", "onload",
        ] {
            assert!(!text.contains(loaded), "{loaded} in {text}");
        }
        assert!(text.contains("&lt;script&gt;"));
    }
    for part in [
        "Long &lt;Meadow&gt;",
        "4 May 2026",
        "<code>Certificate</code>",
        "<svg",
        "R 3 8 ",
        "Share of the whole",
    ] {
        assert!(sheet.contains(part), "{part}");
    }
}

/// The pooled report is that of the samples of both, one after the other; channels are matched by name.
#[test]
fn pooled_fields() {
    let (path, name) = scratch("other.csv");
    let other =
        "remark,dilution,potassium,nitrate,phosphate\nB1,2,1300,640,250\nB2,3,900,711,240\n";
    let joined = format!("{GOOD}B1,2,640,250,1300\nB2,3,711,240,900\n");
    std::fs::write(&path, other).expect("a file");
    for option in ["--raw", "--job"] {
        let pooled = printed(&["pool", option, "-", &name], GOOD);
        assert_eq!(pooled, printed(&["report", option, "-"], &joined));
    }
    let words = printed(&["pool", "-", &name], GOOD);
    // The axes come after an empty line.
    let axes = |text: &str| text.split_once("\n\n").map(|(_, axes)| axes.to_string());
    assert_eq!(axes(&words), axes(&printed(&["report", "-"], &joined)));
    assert!(words.contains("standard input: 8 samples") && words.contains("labels: remark"));
    for (text, line, why) in [
        (other.replace("potassium", "boron"), 1, "other channels"),
        (
            other
                .replace(",phosphate", "")
                .replace(",250", "")
                .replace(",240", ""),
            1,
            "refused 13",
        ),
        (other.replace("711", "70000"), 3, "outside"),
        (other.replace("B2,3,900,711,240\n", ""), 2, "only sample"),
        (
            format!("{other}{}", "B3,3,900,711,240\n".repeat(248)),
            251,
            "258 samples together",
        ),
        (other.replace("900", "x"), 3, "no whole number"),
    ] {
        std::fs::write(&path, &text).expect("a file");
        let why_not = complained(&["pool", "-", &name], 1);
        assert!(
            why_not.contains(&format!("other.csv: line {line}: ")) && why_not.contains(why),
            "{why_not}"
        );
    }
    let _ = std::fs::remove_file(&path);
    let first = run(
        &["pool", "-", "command/none.csv"],
        GOOD.replace("812", "-1").as_bytes(),
    );
    assert!(first.status == Some(1) && first.complained.contains("standard input: line 2: "));
    complained(&["pool", "-", "-"], 2);
    complained(&["pool", "-"], 2);
}

/// Job texts of the repository's examples: each outcome, refusals 1 and 3, and the figures of them.
#[test]
fn a_season() {
    let files = [
        "small.job",
        "malformed.job",
        "field.job",
        "settled.job",
        "one_sample.job",
        "still.job",
    ];
    let texts = files.map(|file| std::fs::read(Path::new(EXAMPLES).join(file)).expect("a job"));
    let texts: Vec<&[u8]> = texts.iter().map(Vec::as_slice).collect();
    let words: Vec<&str> = ["season", "--raw"].into_iter().chain(files).collect();
    let raw = printed(&words, "");
    assert_eq!(Ok(&raw), field_axes::season(&texts).as_ref());
    // small has 1 turn, field 24 and the largest error, on its axis 1; still has none.
    assert_eq!(raw, "6\t1\t2\t1\t1\t0\t1\t0\t25\t449783\t3\t1\n");
    let words: Vec<&str> = words.into_iter().filter(|word| *word != "--raw").collect();
    let text = printed(&words, "");
    assert!(
        text.contains("       2 still\n") && text.contains("       1 refused 3: "),
        "{text}"
    );
    assert!(
        text.contains(&format!(
            "is 449783 units of 1/1024: job 3, {}, axis 1.",
            files[2]
        )),
        "{text}"
    );
    let none = printed(&["season", "-"], "no job");
    assert!(none.contains("No job was accepted"), "{none}");
    let many = [files[0]; 10_001];
    let most: Vec<&str> = ["season", "--raw"]
        .into_iter()
        .chain(many[1..].iter().copied())
        .collect();
    assert!(printed(&most, "").starts_with("10000\t0\t0\t10000\t"));
    let words: Vec<&str> = ["season"].into_iter().chain(many).collect();
    assert!(complained(&words, 1).contains("small.job: refused 16"));
    assert!(complained(&["season", "no/such/file.job"], 1).contains("can't be read"));
    complained(&["season"], 2);
}

fn complained(words: &[&str], status: i32) -> String {
    let Ended {
        status: ended,
        printed,
        complained,
    } = run(words, GOOD.as_bytes());
    assert_eq!(
        (ended, printed.as_str()),
        (Some(status), ""),
        "{words:?}: {complained}"
    );
    complained
}

#[test]
fn wrong_usage() {
    for words in [
        &[][..],
        &["reports", "-"],
        &["report"],
        &["report", "a.csv", "b.csv"],
        &["report", "-", "--limit"],
        &["report", "-", "--limit", "0"],
        &["report", "-", "--limit", "17"],
        &["report", "-", "--limit", "+3"],
        &["report", "-", "--limit", "3", "--limit", "4"],
        &["report", "-", "--tolerance", "1048577"],
        &["report", "-", "--tolerance", "-1"],
        &["report", "-", "--raw", "--job"],
        &["report", "-", "--raw=1"],
        &["report", "-", "--colour"],
        &["report", "-", "-x"],
        &["report", "-", "--svg", "-"],
        &["report", "-", "--svg", "a", "--html", "a"],
        &["report", "-", "--field", "two\nlines"],
        &["report", "-", "--channels", "a,,b"],
        &["table", "-", "--svg", "a.svg"],
        &["panels"],
        &["panels", "two"],
    ] {
        assert!(complained(words, 2).contains("--help"), "{words:?}");
    }
}

#[test]
fn files_that_are_none() {
    assert!(complained(&["report", "no/such/file.csv"], 1).contains("can't be read"));
    assert!(complained(&["report", "."], 1).contains("can't be read"));
    assert!(
        complained(&["report", "-", "--svg", "no/such/folder/a.svg"], 1)
            .contains("can't be written")
    );
    assert!(complained(&["panels", "9"], 1).contains("refused 2"));
    assert!(complained(&["panels", "-1"], 1).contains("refused 2"));
    assert!(complained(&["report", "/dev/zero"], 1).contains("bytes"));
}

#[test]
fn help_says_what_is_not_proved() {
    let help = printed(&["--help"], "");
    assert_eq!(help, printed(&["report", "--help"], ""));
    assert!(help.contains("What is not: this command"));
}

/// What the samples are read from is not written over.
#[test]
fn readings_are_kept() {
    let (path, name) = scratch("readings.csv");
    std::fs::write(&path, GOOD).expect("a file");
    for option in ["--svg", "--html"] {
        assert!(complained(&["report", &name, option, &name], 2).contains("not written over"));
    }
    assert_eq!(std::fs::read_to_string(&path).expect("a file"), GOOD);
    let _ = std::fs::remove_file(&path);
}

/// Refusals have the words of docs/USING.md.
#[test]
fn refusals_in_words() {
    let using = include_str!("../../docs/USING.md");
    for number in 1..=16 {
        let refused = field_axes::Refused(number);
        let words = refused.words();
        assert!(
            using.contains(&format!("| {number} | {words} |")),
            "{refused}"
        );
        assert_eq!(refused.to_string(), format!("refused {number}: {words}"));
    }
    let refused = field_axes::report(b"P\t2\t1\t0\nS\t0\t1\t1\n").expect_err("a dilution of 0");
    let expected = format!("line 2: {}", field_axes::Refused(2));
    assert_eq!(refused.to_string(), expected);
    for number in [0, 17, u32::MAX] {
        let words = field_axes::Refused(number).words();
        assert_eq!(words, "no refusal has this number");
    }
}
