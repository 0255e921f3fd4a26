//! The texts of `examples/`: jobs and calls from small to as long as they may be, and some that are refused.

use crate::files::NAME_LIMIT;
use crate::generate::with_calls;
use crate::job::{Job, TEXT_LIMIT};
use crate::random::Random;
use crate::record::{Record, TURN_LIMIT};
use crate::scatter::Sample;
use crate::{calls, job, text};

/// A name and its text.
pub struct Example {
    pub name: &'static str,
    pub text: fn() -> Vec<u8>,
}

const fn example(name: &'static str, text: fn() -> Vec<u8>) -> Example {
    Example { name, text }
}

pub const JOBS: &[Example] = &[
    example("small", || tabs(PRINTED)),
    example("field", field),
    example("full", full),
    example("settled", || {
        tabs("P 3 5 0\nS 2 7 8 9\nS 2 7 8 9\nS 2 7 8 9\nE 3\n")
    }),
    example("still", || tabs("P 2 16 0\nS 64 1 16384\nS 1 63 0\nE 2\n")),
    example("strong", || tabs(STRONG)),
    example("tied", || tabs(TIED)),
    example("all_tied", || tabs(ALL_TIED)),
    example("zeros", || tabs(ZEROS)),
    example("tied_errors", || tabs(TIED_ERRORS)),
    example("negative_axis", || tabs(NEGATIVE_AXIS)),
    example("half", || half(128)),
    example("more_than_half", || half(129)),
    example("empty", Vec::new),
    example("malformed", || tabs("P 2 1 0\nS 1 0 0\nS 5 1 00\n")),
    example("no_line_feed", || tabs("P 2 1 0\nS 1 0 0\nS 5 1 0\nE 2")),
    example("out_of_range", || tabs("P 2 1 0\nS 1 0 0\nS 101 1 0\n")),
    example("one_sample", || tabs("P 2 1 0\nS 1 0 0\nE 1\n")),
    example("wrong_number", || {
        tabs("P 2 1 0\nS 1 0 0\nS 5 1 0\nS 1 5 5\nE 4\n")
    }),
    example("byte_after_longest", || [longest(), vec![b'\n']].concat()),
    example("sample_257_out_of_range", sample_257_out_of_range),
    example("beyond_limit", beyond_limit),
];

pub const CALLS: &[Example] = &[
    example("small", || {
        tabs("L 1 2 50 25 25 50\nQ 2 0\nT 3 1 2\nA 4 1\nA 1 2\nW 2\nQ 3 7168\n")
    }),
    example("empty", Vec::new),
    example("refused", || tabs(REFUSED)),
    example("used_up", used_up),
    example("no_call", || tabs("L 1 2 2 1 1 2\nW 2\nA 3 01\nA 4 1\n")),
    example("no_samples", || tabs(NO_SAMPLES)),
    example("no_line_feed", || tabs("L 1 2 2 1 1 2\nW 2\nA 3 1")),
    example("beyond_limit", calls_beyond_limit),
    example("line_feed_at_limit", || {
        [calls_of_length(calls::TEXT_LIMIT), tabs("W 1\n")].concat()
    }),
    example("byte_after_limit", || {
        calls_of_length(calls::TEXT_LIMIT + 1)
    }),
    example("pairs", every_pair),
    example("tournament", tournament),
    example("samples", sample_loads),
    example("samples_used_up", samples_used_up),
    example("benches", || [tabs(BY_BENCHES), tabs("W\n")].concat()),
];

/// A name, and the arguments of a program that is run at the repository's root.
pub struct Run {
    pub name: &'static str,
    pub arguments: fn() -> Vec<String>,
}

impl Run {
    /// The arguments, a line each.
    pub fn lines(&self) -> Vec<u8> {
        let lines = (self.arguments)().into_iter();
        lines.map(|word| word + "\n").collect::<String>().into()
    }
}

const fn run(name: &'static str, arguments: fn() -> Vec<String>) -> Run {
    Run { name, arguments }
}

/// All panels of each size, but for the largest, on which the program's own stored output is; and what is no size.
pub const PANELS: &[Run] = &[
    run("size_0", || words("0")),
    run("size_1", || words("1")),
    run("size_2", || words("2")),
    run("size_3", || words("3")),
    run("size_4", || words("4")),
    run("size_5", || words("5")),
    run("size_6", || words("6")),
    run("size_7", || words("7")),
    run("size_9", || words("9")),
    run("negative", || words("-1")),
    run("beyond_64_bits", || words("18446744073709551617")),
    // As long as an argument is on Linux.
    run("long", || vec!["1".repeat(131_071)]),
    run("long_negative", || vec![format!("-{}", "1".repeat(5_000))]),
    run("long_no_number", || vec!["1".repeat(5_000) + "x"]),
    run("none", Vec::new),
    run("two", || words("1 1")),
    run("empty", || vec![String::new()]),
    run("minus_zero", || words("-0")),
    run("leading_zero", || words("01")),
    run("plus", || words("+1")),
    run("blank", || vec!["1 ".into()]),
];

/// Two jobs pooled: accepted ones, 13, each refusal of the first and of the second, too many samples together, and what names no file.
pub const POOLS: &[Run] = &[
    run("small", || jobs("small small")),
    run("small_strong", || jobs("small strong")),
    run("strong_small", || jobs("strong small")),
    run("field_negative_axis", || jobs("field negative_axis")),
    run("negative_axis_field", || jobs("negative_axis field")),
    run("tied", || jobs("tied all_tied")),
    run("settled", || jobs("settled settled")),
    run("still", || jobs("still still")),
    run("zeros", || jobs("zeros zeros")),
    run("together_256", || jobs("half half")),
    run("together_257", || jobs("half more_than_half")),
    run("together_257_turned", || jobs("more_than_half half")),
    run("together_258", || jobs("full zeros")),
    run("unequal", || jobs("small field")),
    run("unequal_and_too_many", || jobs("full half")),
    run("first_1", || jobs("malformed small")),
    run("second_1", || jobs("small malformed")),
    run("first_2", || jobs("out_of_range small")),
    run("second_2", || jobs("small out_of_range")),
    run("first_3", || jobs("one_sample small")),
    run("second_3", || jobs("small one_sample")),
    run("first_4", || jobs("wrong_number small")),
    run("second_4", || jobs("small wrong_number")),
    run("both_refused", || jobs("wrong_number malformed")),
    run("refused_before_unequal", || jobs("field out_of_range")),
    run("second_beyond_limit", || jobs("small beyond_limit")),
    run("first_empty_text", || jobs("empty small")),
    run("first_folder", || words("examples examples/small.job")),
    run("second_folder", || words("examples/small.job examples")),
    run("no_name", Vec::new),
    run("one_name", || jobs("small")),
    run("three_names", || jobs("small small small")),
    run("third_not_there", || {
        words("examples/small.job examples/small.job examples/none")
    }),
    run("first_not_there", || {
        words("examples/none examples/small.job")
    }),
    run("second_not_there", || {
        words("examples/small.job examples/none")
    }),
    run("neither_there", || words("examples/none examples/none")),
    run("three_and_second_not_there", || {
        words("examples/small.job examples/none examples/small.job")
    }),
    run("first_empty", || {
        vec![String::new(), "examples/small.job".into()]
    }),
    run("second_empty", || {
        vec!["examples/small.job".into(), String::new()]
    }),
    run("third_empty", || {
        [jobs("small small"), vec![String::new()]].concat()
    }),
    run("longest_names", || vec![long_name(4_095); 2]),
    run("first_too_long", || {
        vec![long_name(4_096), long_name(4_095)]
    }),
    run("second_too_long", || {
        vec![long_name(4_095), "1".repeat(131_071)]
    }),
];

/// Seasons: each outcome and refusal, the first of the largest errors and its lowest axis, errors of 0, no accepted job, none at all, as many jobs as
/// may be and more, and what names no file.
pub const SEASONS: &[Run] = &[
    run("none", Vec::new),
    run("small", || jobs("small")),
    run("every_job", || {
        let names = JOBS.iter().map(|example| example.name);
        jobs(&names.collect::<Vec<_>>().join(" "))
    }),
    run("outcomes", || jobs("settled still small strong tied full")),
    run("refused", || {
        jobs("malformed out_of_range one_sample wrong_number malformed one_sample wrong_number")
    }),
    run("refused_1", || jobs("empty")),
    run("refused_2", || jobs("out_of_range")),
    run("refused_3", || jobs("one_sample")),
    run("refused_4", || jobs("wrong_number")),
    run("largest_last", || jobs("small malformed field")),
    run("largest_first", || jobs("field small malformed")),
    run("same_job_twice", || {
        jobs("malformed small negative_axis negative_axis small")
    }),
    run("tied_jobs", || jobs("tied_errors strong tied_errors")),
    run("tied_axes", || jobs("out_of_range tied_errors")),
    run("highest_axis", || jobs("negative_axis")),
    run("errors_of_0", || {
        jobs("malformed settled zeros wrong_number")
    }),
    run("folder", || words("examples examples/small.job")),
    run("beyond_limit", || jobs("beyond_limit small")),
    run("first_not_there", || {
        words("examples/none examples/small.job")
    }),
    run("last_not_there", || {
        words("examples/small.job examples/malformed.job examples/none")
    }),
    run("empty_name", || {
        [jobs("small"), vec![String::new()], jobs("small")].concat()
    }),
    run("longest_name", || vec![long_name(4_095)]),
    run("name_too_long", || {
        [jobs("small"), vec![long_name(4_096)]].concat()
    }),
    run("jobs_10000", || folders_and_small(9_999)),
    run("jobs_10001", || {
        [folders_and_small(9_999), words("examples/none")].concat()
    }),
    run("last_of_10000_not_there", || {
        [
            folders_and_small(9_998),
            words("examples/none examples/small.job"),
        ]
        .concat()
    }),
];

/// So many folders, each of which is a job without text, and the small job after them.
fn folders_and_small(count: usize) -> Vec<String> {
    [vec![".".to_string(); count], jobs("small")].concat()
}

/// The names of example jobs' files.
fn jobs(names: &str) -> Vec<String> {
    let name = |word: String| format!("examples/{word}.job");
    words(names).into_iter().map(name).collect()
}

/// A name of the small job's file that has so many bytes.
fn long_name(length: usize) -> String {
    let name = "examples/small.job";
    let before = length - name.len();
    let odd = if before % 2 == 0 { "" } else { "/" };
    "./".repeat(before / 2) + odd + name
}

/// The files of the repository's root that examples name: the example jobs, and folders, of which nothing is read.
pub fn files(name: &[u8], limit: usize) -> Option<Vec<u8>> {
    // The system takes no longer name.
    if name.len() > NAME_LIMIT {
        return None;
    }
    let name = std::str::from_utf8(name).ok()?;
    let name = name.trim_start_matches("./").trim_start_matches('/');
    if ["examples", "."].contains(&name) {
        return Some(Vec::new());
    }
    let job = name.strip_prefix("examples/")?.strip_suffix(".job")?;
    let example = JOBS.iter().find(|example| example.name == job)?;
    let text = (example.text)();
    Some(text[..text.len().min(limit)].to_vec())
}

fn words(words: &str) -> Vec<String> {
    words.split(' ').map(str::to_string).collect()
}

/// Document 01's printed example, blanks for tabs.
pub const PRINTED: &str = "P 2 1 0\nS 1 0 0\nS 5 1 0\nS 1 5 5\nE 3\n";

/// A job with e = 1, of which the error without 512 units a channel is exceeded, blanks for tabs.
pub const STRONG: &str = "P 2 1 0\nS 1 1449 0\nS 1 0 0\nE 2\n";

/// Jobs for the order of a report's axes, blanks for tabs. Axes 1 and 3 have equal entries and unequal errors, and axis 2 a larger entry.
pub const TIED: &str = "P 3 2 0\nS 1 1 0 0\nS 1 1 1 1\nS 1 0 1 0\nS 1 0 0 1\nS 1 0 2 0\nE 5\n";

/// All entries are equal and not 0; axis 2 has the least error. No pair is loose, so nothing is turned.
pub const ALL_TIED: &str = "P 3 1 4096\nS 1 0 0 0\nS 1 0 1 0\nS 1 1 0 1\nS 1 1 1 1\nE 4\n";

/// Equal values on 8 channels, by other dilutions: all entries are 0.
pub const ZEROS: &str = "P 8 16 0\nS 1 2 4 6 8 10 12 14 16\nS 2 1 2 3 4 5 6 7 8\nE 2\n";

/// Axes 2 and 3 have the same error, and axis 1 none. No pair is loose.
pub const TIED_ERRORS: &str = "P 3 1 4096\nS 1 0 0 0\nS 1 0 1 1\nE 2\n";

/// Two entries are below 0, one of them larger in size than one above 0. Without rounding no entry of readings is.
pub const NEGATIVE_AXIS: &str = "P 4 9 0\nS 1 461 0 303 2827\nS 1 0 66 3 0\nE 2\n";

/// Calls at their refusals and beside them, blanks for tabs: 10 first, then 5, 6, 8 and 7, alone and in their order, then 2 and 9.
const REFUSED: &str = "W 2\nT 3 1 2\nT 1 2 1\nQ 4 0\nQ 3 1048577\nA 1 1\nA 2 0\nL 4 1 5\nL 4 9\nL 2 0\nL 3 2 1 2 3\nL 1 2 1 2 3 4 5\nL 2 2\n\
L 1 2 2097153 0 0 1\nL 4 2 -2097153 0 0 1\nL 3 2 1 2 3 1\nL 1 9 2097153\nL 2 2 2097153 2 3\nL 3 2 2097153 2 3 1\nL 4 9999999999 -9999999999\nW 1\n\
L 3 2 50 25 25 50\nQ 2 25599\nQ 4 25600\nQ 3 1048576\nQ 4 1048577\nQ 1 9999999999\nT 2 1 1\nT 1 2 1\nT 2 0 1\nT 4 1 3\nT 3 0 0\n\
T 1 9999999999 9999999999\nA 4 0\nA 3 3\nT 2 1 2\nL 4 2 1 2 3 1\nA 3 1\nA 1 2\nL 2 2 0 1 1 1048576\nT 4 1 2\nW 3\nQ 1 1023\nQ 2 1024\n\
L 2 2 2097152 1 1 -2097152\nW 4\nA 3 1\nA 1 2\n";

/// Calls by each of the four benches and by others, blanks for tabs. With no matrix: each of the four refused, then 15 by a bench that is none of
/// them, before 10, 5 and 2 and where a load is good, which then loads nothing. With one: 15 before 9 and 2, and where nothing else is wrong, which
/// then changes nothing. Some of the numbers are one of the four in fewer bits. Then the other refusals, and a mix of benches. The example
/// ends with a line without a bench.
const BY_BENCHES: &str = "W 1\nT 2 1 2\nQ 3 0\nA 4 1\nO 4\nL 3 1 5\nM 4 9 0\nQ 4 1048577\n\
W 0\nO 5\nT -1 1 2\nA 9999999999 1\nQ 18446744073709551617 0\nQ 4294967298 0\nA 257 1\nL 5 1 5\nM 0 9 0\nL -9999999999999 2 1 2 3\n\
L 5 2 50 25 25 50\nW 1\nM 0 2 3 1 5 1 0 0 1 0 5 5\nA 2 1\nL -2 2 50 25 25 50\nQ 3 0\n\
L 4 2 50 25 25 50\nT 0 2 1\nT 5 1 3\nA 5 3\nA -3 0\nQ 6 1048577\nA 4 1\n\
T 0 1 2\nW 5\nO -1\nL 5 2 1 0 0 1\nM 10000000000 2 2 1 1 0 0 1 1\nA 0 1\nQ 4294967297 0\nA 1 1\nA 2 2\nQ 3 0\n\
T 1 2 1\nA 2 3\nQ 3 1048577\nL 4 2 1 2 3\nL 1 2 1 2 3 4\nL 2 2 2097153 0 0 0\nM 3 2 1 1 0 0\nM 4 2 2 1 1 0\n\
T 2 1 2\nA 3 1\nW 4\nA 1 2\nO 2\nQ 1 0\nQ 4 0\nM 3 2 2 1 1 1449 0 0 0\nA 1 1\nA 4 1\nA 5 1\nA 2 1\nT 3 1 1\n";

/// A load of samples with fewer numbers after k than k is no call, blanks for tabs; with as many it is one, which is refused.
const NO_SAMPLES: &str = "L 1 2 2 1 1 2\nM 2 2 3 1 1 1\nA 3 1\nM 4 2 3 1 1\nA 1 1\n";

/// A matrix on which rounding keeps pairs turning.
#[rustfmt::skip]
pub const KEEPS_TURNING: [i128; 64] = [
    -1, 0, 1, 0, -1, 0, 0, -1,
    0, 1, -1, 0, 1, 1, 1, 1,
    1, -1, 0, 0, 0, 1, -1, -1,
    0, 0, 0, 1, 1, 1, -1, -1,
    -1, 1, 0, 1, -1, 0, -1, 0,
    0, 1, 1, 1, 0, 1, 0, 0,
    0, 1, -1, -1, -1, 0, 1, -1,
    -1, 1, -1, -1, 0, 0, -1, 0,
];

/// A text written with blanks for tabs.
pub fn tabs(text: &str) -> Vec<u8> {
    text.replace(' ', "\t").into_bytes()
}

/// Twelve samples of one field: nitrate, phosphate, potassium and magnesium. Strong samples were diluted.
fn field() -> Vec<u8> {
    const SAMPLES: [(i128, [i128; 4]); 12] = [
        (5, [8_120, 2_314, 11_876, 3_452]),
        (5, [7_644, 2_198, 12_410, 3_517]),
        (5, [9_381, 2_655, 10_932, 3_290]),
        (10, [5_207, 1_463, 5_118, 1_602]),
        (10, [4_866, 1_391, 5_574, 1_688]),
        (5, [6_935, 1_987, 13_045, 3_731]),
        (2, [15_418, 4_302, 33_867, 9_874]),
        (2, [14_206, 4_120, 35_190, 10_216]),
        (1, [27_733, 8_415, 64_208, 19_957]),
        (5, [8_874, 2_540, 11_263, 3_344]),
        (10, [5_490, 1_548, 4_871, 1_553]),
        (5, [7_258, 2_061, 12_796, 3_628]),
    ];
    job_text(
        4,
        16,
        200_000,
        SAMPLES
            .iter()
            .map(|(dilution, counts)| Sample {
                dilution: *dilution,
                counts: counts.to_vec(),
            })
            .collect(),
    )
}

/// 256 samples on 8 channels. Two levels of each place, its fertility and its wetness, make the values of all channels,
/// with a little noise; a sample is diluted no more than its strongest channel asks.
fn full() -> Vec<u8> {
    const BY_FERTILITY: [i128; 8] = [310, 92, 540, 128, 75, 46, 33, 18];
    const BY_WETNESS: [i128; 8] = [-140, 12, 85, -30, 64, -9, 21, 15];
    const BASE: [i128; 8] = [9_000, 800, 2_500, 3_100, 450, 900, 120, 60];
    const DILUTIONS: [i128; 7] = [1, 2, 5, 10, 20, 50, 100];
    let mut random = Random::new(256);
    let samples = (0..256)
        .map(|_| {
            let fertility = random.between(20, 900);
            let wetness = random.between(0, 60);
            let values: Vec<i128> = (0..8)
                .map(|i| {
                    let level = BASE[i] + BY_FERTILITY[i] * fertility + BY_WETNESS[i] * wetness;
                    (level + random.between(-level.abs() / 50, level.abs() / 50)).max(0)
                })
                .collect();
            let dilution = DILUTIONS
                .into_iter()
                .find(|dilution| values.iter().all(|value| value / dilution <= 65_535))
                .expect("values below 6,553,600");
            Sample {
                dilution,
                counts: values.iter().map(|value| value / dilution).collect(),
            }
        })
        .collect();
    job_text(8, 16, 1024, samples)
}

/// So many samples of two channels, few enough with others of these to be 256 together, or too many.
fn half(k: usize) -> Vec<u8> {
    let mut random = Random::new(128);
    let samples = (0..k)
        .map(|_| Sample {
            dilution: random.between(1, 20),
            counts: vec![random.between(0, 999), random.between(0, 99)],
        })
        .collect();
    job_text(2, 16, 512, samples)
}

/// The longest job there is: 256 samples on 8 channels, and every number as long as it may be.
pub fn longest() -> Vec<u8> {
    let mut random = Random::new(8);
    let samples = (0..256)
        .map(|_| Sample {
            dilution: 100,
            counts: (0..8).map(|_| random.between(10_000, 65_535)).collect(),
        })
        .collect();
    job_text(8, 16, 1_000_000, samples)
}

/// The longest text that is judged otherwise than its beginning: in place of the longest job's last line a 257th sample of
/// the longest numbers, which is refused for its ranges, and for its form where a byte of it is cut off.
fn sample_257_out_of_range() -> Vec<u8> {
    let mut text = longest();
    text.truncate(text.len() - b"E\t256\n".len());
    text.extend(text::tagged("S", &[9_999_999; 9]).into_bytes());
    text
}

/// More samples than a job may have, and more bytes than are read.
fn beyond_limit() -> Vec<u8> {
    let mut text = tabs("P 2 1 0\n");
    while text.len() <= TEXT_LIMIT {
        text.extend(tabs("S 1 0 0\n"));
    }
    text
}

fn job_text(n: usize, sweep_limit: i128, tolerance: i128, samples: Vec<Sample>) -> Vec<u8> {
    Job {
        n,
        sweep_limit,
        tolerance,
        samples,
    }
    .text()
    .into_bytes()
}

/// Sweeps until one is refused, then turns until one is: "11 turn with m = 448, or sweep with m + n(n−1)/2 > 448". The four benches call
/// one after another. Then calls that other refusals come before, 15 among them, and the axes.
fn use_up(record: &mut Record) -> String {
    let mut lines = String::new();
    let mut benches = (1..=4).cycle();
    for bench in benches.by_ref().take(TURN_LIMIT as usize) {
        lines += &text::tagged("W", &[bench]);
        if record.sweep(bench).is_err() {
            break;
        }
    }
    let pairs = (1..=8).flat_map(|p| (p + 1..=8).map(move |q| (p, q)));
    for ((p, q), bench) in pairs.cycle().take(2000).zip(benches) {
        lines += &text::tagged("T", &[bench, p, q]);
        if record.turn(bench, p, q).is_err() {
            break;
        }
    }
    lines += "W 1\nO 2\nT 3 2 1\nT 4 9 9\nA 1 9\nQ 2 1048577\nQ 3 0\nT 5 1 2\n";
    for i in 1..=8 {
        lines += &text::tagged("A", &[(i + 1) / 2, i]);
    }
    lines
}

/// That, from a plain load; then another one, with all turns left.
fn used_up() -> Vec<u8> {
    let mut record = Record::fresh();
    let mut lines = text::tagged("L", &[&[2, 8], &KEEPS_TURNING[..]].concat());
    record.load(2, 8, &KEEPS_TURNING).expect("small numbers");
    lines += &use_up(&mut record);
    tabs(&(lines + "L 4 2 2 1 1 2\nT 3 1 2\nW 2\nA 1 1\n"))
}

/// That, from a load of samples with a shift, so that each error is the larger one; then a plain load, and the samples again.
fn samples_used_up() -> Vec<u8> {
    let (dilutions, counts) = one_strong_channel();
    let load = sample_load(3, 8, &dilutions, &counts);
    let mut record = Record::fresh();
    record
        .load_samples(3, 8, &dilutions, &counts)
        .expect("a good load");
    let lines = load.clone() + &use_up(&mut record);
    tabs(&(lines + "L 1 2 2 1 1 2\nA 2 1\n" + &load + "W 4\nA 3 8\n"))
}

/// Twelve samples of which the first channel asks for a shift; the entries of the seven others are small then, and rounding keeps pairs turning.
fn one_strong_channel() -> (Vec<i128>, Vec<i128>) {
    let mut random = Random::new(26);
    let most = [1_500, 1, 1, 1, 1, 1, 1, 1].repeat(12);
    let counts = most.into_iter().map(|most| random.between(0, most));
    (vec![1; 12], counts.collect())
}

/// A load of samples by a bench: n, k, the dilutions, the counts.
fn sample_load(bench: i128, n: usize, dilutions: &[i128], counts: &[i128]) -> String {
    let k = dilutions.len() as i128;
    text::tagged("M", &[&[bench, n as i128, k], dilutions, counts].concat())
}

/// Sweeps in tournament order of 2, 3, 5 and 8 channels, blanks for tabs: 10 before the load, the axes after each, then both orders in turn. The
/// second matrix is the one of the hand-checked test.
const TOURNAMENTS: &str = "O 1\nL 4 2 50 25 25 50\nO 3\nA 2 1\nA 3 2\nO 1\nL 2 3 0 0 7225 0 0 7225 7225 7225 0\nO 4\nA 3 1\nA 4 2\nA 1 3\n\
L 2 3 0 0 7225 0 0 7225 7225 7225 0\nW 1\nA 3 1\nA 4 2\nA 2 3\nL 4 5 1 2 3 4 5 2 6 7 8 9 3 7 10 11 12 4 8 11 13 14 5 9 12 14 15\nO 3\nA 2 1\nA 1 2\n\
A 3 3\nA 4 4\nA 2 5\nW 1\nO 3\nO 1\nW 4\nA 2 1\nA 3 2\nA 2 3\nA 4 4\nA 1 5\nQ 4 0\n";

/// Those, then 8 channels at both sides of "11 .. sweep with m + n(n−1)/2 > 448": a tournament sweep with 28 turns left, and sweeps of both orders
/// with 27 left.
fn tournament() -> Vec<u8> {
    let mut lines = TOURNAMENTS.to_string();
    for left in [28, 27] {
        let mut record = Record::fresh();
        record.load(1, 8, &KEEPS_TURNING).expect("small numbers");
        lines += &text::tagged("L", &[&[1, 8], &KEEPS_TURNING[..]].concat());
        let m = |record: &Record| record.kept().expect("a matrix").m;
        // Sweeps while another cannot pass the turns wanted, then single turns up to these.
        let wanted = TURN_LIMIT - left;
        let mut benches = (1..=4).cycle();
        for tag in ["O", "W", "O"].into_iter().cycle() {
            if m(&record) + 28 > wanted {
                break;
            }
            let bench = benches.next().expect("a cycle");
            lines += &text::tagged(tag, &[bench]);
            match tag {
                "W" => record.sweep(bench),
                _ => record.tournament_sweep(bench),
            }
            .expect("turns enough");
        }
        let pairs = (1..=8).flat_map(|p| (p + 1..=8).map(move |q| (p, q)));
        for (p, q) in pairs.cycle() {
            if m(&record) == wanted {
                break;
            }
            let bench = benches.next().expect("a cycle");
            if record.turn(bench, p, q).expect("turns enough") {
                lines += &text::tagged("T", &[bench, p, q]);
            }
        }
        lines += if left == 28 {
            "O 2\n"
        } else {
            "O 3\nW 4\nO 3\n"
        };
        for i in 1..=8 {
            lines += &text::tagged("A", &[(i + 1) / 2, i]);
        }
    }
    tabs(&lines)
}

/// Loads of samples, blanks for tabs: refused 2, 6 and 3, alone and in their order, before a matrix is loaded and after; with e = 0, 1 and 25,
/// where each error gains 512 units a channel; then a plain load, which has e = 0 again. The certificate's job is the second that is loaded.
const SAMPLE_LOADS: &str = "M 2 1 2 1 1 0 0\nM 3 9 0\nM 1 0 0\nM 4 -2 0\nM 3 2 2 0 1 0 0 0 0\nM 4 2 2 1 101 0 0 0 0\nM 2 2 2 1 -1 0 0 0 0\n\
M 1 2 2 1 1 65536 0 0 0\nM 1 2 2 1 1 0 0 0 -1\nM 3 2 2 1 1 0 0 0 10000000000\nM 4 2 2 1 1 0 0 0\nM 2 2 2 1 1 0 0 0 0 0\nM 4 2 2 1 1 0 0 0 0 65536\n\
M 2 2 0\nM 1 2 1 1 0 0\nM 3 2 1 1 0\nM 2 2 1 101 0\nM 3 2 3 1 1 1\nA 4 1\nM 1 2 3 1 5 1 0 0 1 0 5 5\nA 4 1\nA 2 2\nW 1\nA 3 1\nA 2 2\n\
M 3 2 2 1 1 1449 0 0 0\nA 1 1\nA 4 2\nM 4 2 2 100 100 65535 65535 0 0\nQ 3 0\nA 1 1\nO 2\nA 1 1\nA 4 2\nM 3 2 1 1 0 0\nA 2 1\nL 3 2 1 2 3 4\nA 1 1\n\
L 2 2 50 25 25 50\nA 4 1\nT 4 1 2\nA 3 1\n\
M 2 8 2 100 100 65535 0 65535 0 65535 0 65535 0 0 65535 0 65535 0 65535 0 65535\nA 1 1\nW 4\nA 2 1\nA 3 8\n";

/// Those, then 257 samples, the strongest 256 that there are, with e = 39, and the longest job's.
fn sample_loads() -> Vec<u8> {
    let mut lines = SAMPLE_LOADS.to_string();
    lines += &sample_load(2, 2, &[1; 257], &[0; 514]);
    lines += &sample_load(3, 2, &[100; 256], &[65_535, 0, 0, 65_535].repeat(128));
    lines += "A 4 1\nW 1\nA 2 1\nA 3 2\n";
    let job = job::read(&longest()).expect("a good job");
    let (dilutions, counts) = job.handed_over();
    lines += &sample_load(4, job.n, &dilutions, &counts);
    lines += "A 1 1\nO 2\nW 3\nA 4 1\nA 1 8\nQ 2 1048576\n";
    tabs(&lines)
}

/// As many bytes of calls as are read.
pub fn longest_calls() -> Vec<u8> {
    let text = [
        tabs(BY_BENCHES),
        tabs(REFUSED),
        used_up(),
        tournament(),
        sample_loads(),
        samples_used_up(),
    ];
    with_calls(text.concat(), calls::TEXT_LIMIT, 1)
}

/// Loads of numbers beyond the limit, by the four benches in turn.
fn loads_beyond(count: usize) -> String {
    let load = |bench| text::tagged("L", &[&[bench, 8], &[-9_999_999_999; 64][..]].concat());
    (1..=4).cycle().take(count).map(load).collect()
}

/// Such loads, the last of which is not read whole.
fn calls_beyond_limit() -> Vec<u8> {
    let load = loads_beyond(1).len();
    loads_beyond(calls::TEXT_LIMIT / load + 1).into_bytes()
}

/// Such loads, and a last one of fewer and longer numbers, so that its line feed is the last of so many bytes.
fn calls_of_length(length: usize) -> Vec<u8> {
    let mut text = loads_beyond(length / loads_beyond(1).len());
    text += "L\t2\t8";
    let left = length - text.len() - 1;
    for place in 0..left / 12 {
        text += "\t-9999999999";
        if place < left % 12 {
            text += "9";
        }
    }
    text += "\n";
    text.into_bytes()
}

/// Each pair of 8 channels as the only loose one, and as the first of those that are; of either sign, at its size and below it.
fn every_pair() -> Vec<u8> {
    let pairs: Vec<(usize, usize)> = (0..8)
        .flat_map(|p| (p + 1..8).map(move |q| (p, q)))
        .collect();
    let mut lines = String::new();
    for place in 0..pairs.len() {
        for (last, size) in [(place, -5), (pairs.len() - 1, 5)] {
            let mut numbers = [0; 64];
            for &(p, q) in &pairs[place..=last] {
                numbers[8 * p + q] = size;
                numbers[8 * q + p] = size;
            }
            lines += &text::tagged("L", &[&[1, 8], &numbers[..]].concat());
            lines += if size < 0 {
                "Q\t2\t5119\nQ\t3\t5120\n"
            } else {
                "Q\t4\t5119\nQ\t1\t5120\n"
            };
        }
    }
    lines.into_bytes()
}

#[cfg(test)]
mod tests {
    use super::*;
    use crate::{calls_of, panels, pool, report_of, season, table_of};
    use std::collections::BTreeSet;

    fn answers(text: &[u8]) -> String {
        String::from_utf8(calls_of(text))
            .unwrap()
            .replace('\t', " ")
    }

    #[test]
    fn calls_end_at_the_limit_and_a_byte_after_it() {
        for (length, line) in [(calls::TEXT_LIMIT, 86), (calls::TEXT_LIMIT + 1, 85)] {
            let mut text = calls_of_length(length);
            assert_eq!((text.len(), text.last()), (length, Some(&b'\n')));
            text.extend(b"W\t1\n");
            assert!(answers(&text).ends_with(&format!("\n? {line}\n")));
        }
    }

    #[test]
    fn every_pair_is_found_alone_and_first() {
        let answers = answers(&every_pair());
        for p in 1..=8 {
            for q in p + 1..=8 {
                assert_eq!(answers.matches(&format!("Q {p} {q}\n")).count(), 2);
            }
        }
        assert_eq!(answers.matches("Q none\n").count(), 56);
    }

    #[test]
    fn the_longest_job_has_13845_bytes_and_is_accepted() {
        let text = longest();
        assert_eq!(text.len(), 13_845);
        let job = job::read(&text).unwrap();
        assert_eq!((job.n, job.samples.len()), (8, 256));
        assert!(report_of(&text).starts_with(b"R\t8\t256\t"));
        assert!(table_of(&text).starts_with(b"T\t8\t256\t"));
    }

    /// A buffer that is too short by any number of bytes has another answer to one of these.
    #[test]
    fn texts_beyond_the_longest_job_are_judged_to_their_last_byte() {
        let byte_after = [&longest()[..], b"\n"].concat();
        assert_eq!(report_of(&byte_after), b"X\t4\t258\n");
        let text = sample_257_out_of_range();
        assert_eq!(text.len(), 13_913);
        assert_eq!(report_of(&text), b"X\t2\t258\n");
        assert_eq!(report_of(&text[..text.len() - 1]), b"X\t1\t258\n");
        for length in (0..longest().len()).step_by(53) {
            assert!(report_of(&longest()[..length]).starts_with(b"X\t1\t"));
        }
    }

    #[test]
    fn the_jobs_have_every_outcome_and_the_refusals_1_to_4() {
        let firsts: BTreeSet<String> = JOBS
            .iter()
            .map(|example| String::from_utf8(report_of(&(example.text)())).unwrap())
            .map(
                |report| match report.split(['\t', '\n']).collect::<Vec<_>>()[..] {
                    ["X", number, ..] => number.to_string(),
                    [_, _, _, _, _, _, outcome, ..] => outcome.to_string(),
                    _ => unreachable!("a report or a refusal"),
                },
            )
            .collect();
        let expected = ["1", "2", "3", "4", "settled", "spent", "still"];
        assert!(firsts.iter().eq(expected), "{firsts:?}");
    }

    /// The axes of these examples as they are listed: their numbers and diagonal entries.
    #[test]
    fn example_axes_are_listed_as_named() {
        let listed = |name: &str| -> Vec<(i128, i128)> {
            let example = JOBS.iter().find(|example| example.name == name).unwrap();
            let report = String::from_utf8(report_of(&(example.text)())).unwrap();
            let numbers = |line: &str| {
                let fields: Vec<&str> = line.split('\t').collect();
                (fields[1].parse().unwrap(), fields[2].parse().unwrap())
            };
            report.lines().skip(1).map(numbers).collect()
        };
        assert_eq!(listed("tied"), [(2, 16_383), (1, 5_121), (3, 5_121)]);
        assert!(listed("all_tied")
            .into_iter()
            .eq((1..=3).map(|i| (i, 4_096))));
        assert!(listed("zeros").into_iter().eq((1..=8).map(|i| (i, 0))));
        assert_eq!(
            listed("negative_axis"),
            [(4, 2_124_494_179), (2, 279), (1, -8), (3, -625)]
        );
    }

    /// The kinds of answers: the refusals' numbers, and the tags with what tells two answers of one tag apart.
    fn kinds(answers: &str) -> BTreeSet<String> {
        answers
            .lines()
            .map(|line| match line.split(' ').collect::<Vec<_>>()[..] {
                ["X", number, _, _, _, _] => number.to_string(),
                ["Q", "none"] => "none".to_string(),
                ["T", made] => format!("T {made}"),
                ["M", e] => format!("M {}", if e == "0" { "0" } else { "above 0" }),
                [tag, ..] => tag.to_string(),
                [] => unreachable!("a line has a field"),
            })
            .collect()
    }

    #[test]
    fn the_longest_calls_have_65536_bytes_and_every_answer() {
        let text = longest_calls();
        assert_eq!(text.len(), 65_536);
        let answers = answers(&text);
        let lines = text.iter().filter(|&&byte| byte == b'\n').count();
        assert_eq!(answers.lines().count(), lines);
        let expected = [
            "10",
            "11",
            "15",
            "2",
            "3",
            "5",
            "6",
            "7",
            "8",
            "9",
            "A",
            "L",
            "M 0",
            "M above 0",
            "O",
            "Q",
            "T 0",
            "T 1",
            "W",
            "none",
        ];
        assert!(kinds(&answers).iter().eq(expected), "{:?}", kinds(&answers));
    }

    #[test]
    fn example_panels_are_as_named() {
        for run in PANELS {
            let printed = panels::program(&(run.arguments)());
            let expected = match run.name {
                "size_9" | "negative" | "beyond_64_bits" | "long" | "long_negative" => "X\t2\n",
                name => match name.strip_prefix("size_") {
                    Some(b) => &panels::text(b.parse().unwrap()).unwrap(),
                    None => "?\n",
                },
            };
            assert_eq!(printed, expected, "{}", run.name);
        }
    }

    #[test]
    fn example_pools_are_as_named() {
        for run in POOLS {
            let printed = pool::program(&(run.arguments)(), files).replace('\t', " ");
            let expected = match run.name {
                "together_256" => "R 2 256 ",
                "together_257" | "together_257_turned" | "together_258" => "X 3 0 0\n",
                "unequal" | "unequal_and_too_many" => "X 13 0 0\n",
                "first_1" => "X 1 3 1\n",
                "second_1" => "X 1 3 2\n",
                "first_2" => "X 2 3 1\n",
                "second_2" | "refused_before_unequal" => "X 2 3 2\n",
                "first_3" => "X 3 3 1\n",
                "second_3" => "X 3 3 2\n",
                "first_4" | "both_refused" => "X 4 5 1\n",
                "second_4" => "X 4 5 2\n",
                "second_beyond_limit" => "X 3 258 2\n",
                "first_folder" | "first_empty_text" => "X 1 1 1\n",
                "second_folder" => "X 1 1 2\n",
                "no_name" | "first_not_there" | "neither_there" | "first_empty"
                | "first_too_long" => "? 1\n",
                "one_name"
                | "second_not_there"
                | "three_and_second_not_there"
                | "second_empty"
                | "second_too_long" => "? 2\n",
                "three_names" | "third_empty" | "third_not_there" => "? 3\n",
                _ => "R ",
            };
            let whole = !expected.starts_with('R');
            assert!(printed.starts_with(expected), "{}: {printed}", run.name);
            assert!(!whole || printed == expected, "{}: {printed}", run.name);
        }
        // The first one's limit and tolerance: other reports the other way around.
        let of = |names: &str| pool::program(&jobs(names), files);
        assert_ne!(of("field negative_axis"), of("negative_axis field"));
        assert_eq!(
            of("small small"),
            pool::program(&vec![long_name(4_095); 2], files)
        );
        let lengths = [4_095, 4_096].map(|length| long_name(length).len());
        assert_eq!(lengths, [4_095, 4_096]);
    }

    #[test]
    fn example_seasons_are_as_named() {
        let of = |name: &str| {
            let run = SEASONS.iter().find(|run| run.name == name).unwrap();
            season::program(&(run.arguments)(), files).replace('\t', " ")
        };
        for (name, expected) in [
            ("none", "0 0 0 0 0 0 0 0 0 0 0 0\n"),
            ("small", "1 0 0 1 0 0 0 0 1 7172 1 1\n"),
            ("outcomes", "6 2 2 2 0 0 0 0 176 499871 6 3\n"),
            ("refused", "7 0 0 0 2 1 2 2 0 0 0 0\n"),
            ("refused_1", "1 0 0 0 1 0 0 0 0 0 0 0\n"),
            ("refused_2", "1 0 0 0 0 1 0 0 0 0 0 0\n"),
            ("refused_3", "1 0 0 0 0 0 1 0 0 0 0 0\n"),
            ("refused_4", "1 0 0 0 0 0 0 1 0 0 0 0\n"),
            ("largest_last", "3 0 1 1 1 0 0 0 25 449783 3 1\n"),
            ("largest_first", "3 0 1 1 1 0 0 0 25 449783 1 1\n"),
            ("same_job_twice", "5 0 2 2 1 0 0 0 66 237303 3 4\n"),
            ("tied_jobs", "3 3 0 0 0 0 0 0 0 1024 1 2\n"),
            ("tied_axes", "2 1 0 0 0 1 0 0 0 1024 2 2\n"),
            ("highest_axis", "1 0 1 0 0 0 0 0 32 237303 1 4\n"),
            ("errors_of_0", "4 2 0 0 1 0 0 1 0 0 2 1\n"),
            ("folder", "2 0 0 1 1 0 0 0 1 7172 2 1\n"),
            ("beyond_limit", "2 0 0 1 0 0 1 0 1 7172 2 1\n"),
            ("first_not_there", "? 1\n"),
            ("last_not_there", "? 3\n"),
            ("empty_name", "? 2\n"),
            ("longest_name", "1 0 0 1 0 0 0 0 1 7172 1 1\n"),
            ("name_too_long", "? 2\n"),
            ("jobs_10000", "10000 0 0 1 9999 0 0 0 1 7172 10000 1\n"),
            (
                "jobs_10001",
                "10000 0 0 1 9999 0 0 0 1 7172 10000 1\nX 16\n",
            ),
            ("last_of_10000_not_there", "? 10000\n"),
        ] {
            assert_eq!(of(name), expected, "{name}");
        }
        assert!(of("every_job").starts_with(&format!("{} ", JOBS.len())));
        assert_eq!(SEASONS.len(), 26);
    }

    #[test]
    fn example_calls_are_refused_as_named() {
        let of = |name: &str| {
            let example = CALLS.iter().find(|example| example.name == name);
            answers(&(example.unwrap().text)())
        };
        let refused = kinds(&of("refused"));
        assert!(["10", "2", "5", "6", "7", "8", "9"]
            .iter()
            .all(|&number| refused.contains(number)));
        // The same calls after either load: the first sweep that is refused, the turns up to one that is, then what comes before 11.
        for (name, gained) in [("used_up", 0), ("samples_used_up", 8 * 512)] {
            let used_up = of(name);
            assert_eq!(used_up.matches("X 11 ").count(), 4, "{name}");
            let tail = used_up.split("X 11 ").last().unwrap();
            let starts = ["X 9 ", "X 9 ", "X 9 ", "X 2 ", "Q 1 2", "X 15 "];
            let mut after = tail.lines().skip(1).zip(starts);
            assert!(after.all(|(line, start)| line.starts_with(start)));
            let least = 7 * TURN_LIMIT / 2 + gained;
            let axes = tail.lines().filter(|line| line.starts_with("A ")).take(8);
            let error = |line: &str| line.split(' ').nth(2).unwrap().parse::<i128>().unwrap();
            assert!(axes.map(error).all(|error| error >= least), "{name}");
        }
        assert!(of("samples_used_up").starts_with("M 3\n"));
        let tournament = of("tournament");
        assert!(tournament.starts_with("X 10 1 0 0 0\nL\nO 1\n"));
        assert!(tournament.contains("\nX 11 1 0 1 0\nX 11 1 0 1 1\nX 11 1 0 2 1\nA "));
        assert_eq!(tournament.matches('X').count(), 4);
        let samples = of("samples");
        assert!(["2", "3", "6", "10"]
            .iter()
            .all(|&number| kinds(&samples).contains(number)));
        for e in [0, 1, 25, 37, 39] {
            assert!(samples.contains(&format!("\nM {e}\n")), "{e}");
        }
        assert_eq!(of("empty"), "");
        assert_eq!(of("no_call"), "L\nW 1\n? 3\n");
        assert_eq!(
            of("no_samples"),
            "L\nX 6 0 1 0 0\nA 2048 1024 1073741824 0\n? 4\n"
        );
        assert_eq!(of("no_line_feed"), "L\nW 1\n? 3\n");
        assert!(of("beyond_limit").ends_with("X 8 21 21 21 21\n? 85\n"));
    }

    #[test]
    fn example_calls_name_each_bench() {
        for example in CALLS {
            let text = String::from_utf8((example.text)()).unwrap();
            let named: BTreeSet<&str> = text
                .lines()
                .filter_map(|line| line.split('\t').nth(1))
                .collect();
            let all = match example.name {
                "empty" => 0,
                "no_line_feed" => 3,
                _ => 4,
            };
            let four = ["1", "2", "3", "4"].iter();
            let found = four.filter(|&bench| named.contains(bench)).count();
            assert_eq!(found, all, "{}", example.name);
        }
    }

    /// Each refusal of a call by one of the four benches raises one count; the counts come apart, and 15 leaves them.
    #[test]
    fn benches_are_refused_as_named() {
        let text = [tabs(BY_BENCHES), tabs("W\n")].concat();
        let answers = answers(&text);
        let refused: Vec<Vec<i128>> = answers
            .lines()
            .filter_map(|line| line.strip_prefix("X "))
            .map(|line| {
                line.split(' ')
                    .map(|field| field.parse().unwrap())
                    .collect()
            })
            .collect();
        let mut counts = [0; 4];
        for (number, line) in refused.iter().map(|line| (line[0], &line[1..])) {
            let raised: i128 = line.iter().zip(counts).map(|(new, old)| new - old).sum();
            assert_eq!(raised, i128::from(number != 15));
            counts.copy_from_slice(line);
        }
        assert_eq!(counts, [4, 4, 6, 6]);
        assert_eq!(refused.iter().filter(|line| line[0] == 15).count(), 26);
        let expected = ["10", "15", "2", "3", "5", "6", "7", "8", "9", "?", "A", "L"];
        let kinds = kinds(&answers);
        assert!(expected.iter().all(|&kind| kinds.contains(kind)));
        assert!(answers.ends_with("X 9 4 4 6 6\n? 63\n"));
    }
}
