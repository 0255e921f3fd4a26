//! Field Axes for Rust programs: safe functions over the proved static library.
//!
//! A refusal is the number that the customer's documents 01 and 02 give it.

/// The declarations of `crates/field_axes_c/src/lib.rt`, where a `&[T]` is a pointer and a length. `tests/` holds them to it, and
/// those of `bindings/c/field_axes.h`.
mod raw {
    extern "C" {
        pub fn field_axes_solve(
            n: usize,
            numbers: *const i64,
            numbers_length: usize,
            limit: u64,
            tolerance: u64,
            out: *mut i64,
            out_length: usize,
        ) -> i64;

        pub fn field_axes_table(
            n: usize,
            dilutions: *const u32,
            dilutions_length: usize,
            counts: *const u32,
            counts_length: usize,
            out: *mut i64,
            out_length: usize,
        ) -> i64;

        pub fn field_axes_job(
            n: usize,
            limit: u64,
            tolerance: u64,
            dilutions: *const u32,
            dilutions_length: usize,
            counts: *const u32,
            counts_length: usize,
            out: *mut u8,
            out_length: usize,
        ) -> i64;

        pub fn field_axes_report(
            text: *const u8,
            text_length: usize,
            out: *mut u8,
            out_length: usize,
            line: *mut usize,
        ) -> i64;

        pub fn field_axes_pool(
            n: usize,
            limit: u64,
            tolerance: u64,
            dilutions: *const u32,
            dilutions_length: usize,
            counts: *const u32,
            counts_length: usize,
            other_n: usize,
            other_limit: u64,
            other_tolerance: u64,
            other_dilutions: *const u32,
            other_dilutions_length: usize,
            other_counts: *const u32,
            other_counts_length: usize,
            out: *mut u8,
            out_length: usize,
        ) -> i64;

        pub fn field_axes_calls(
            text: *const u8,
            text_length: usize,
            out: *mut u8,
            out_length: usize,
        ) -> i64;

        pub fn field_axes_season(
            texts: *const u8,
            texts_length: usize,
            ends: *const usize,
            ends_length: usize,
            out: *mut u8,
            out_length: usize,
        ) -> i64;

        pub fn field_axes_panels(b: i64, out: *mut u8, out_length: usize) -> i64;

        pub fn field_axes_panel(b: i64, position: i64, out: *mut i64, out_length: usize) -> i64;

        pub fn field_axes_panel_position(b: i64, a11: i64, a12: i64, a22: i64) -> i64;
    }
}

/// The number of a refusal.
#[derive(Clone, Copy, Debug, PartialEq, Eq)]
pub struct Refused(pub u32);

/// How a run ends.
#[derive(Clone, Copy, Debug, PartialEq, Eq)]
pub enum Outcome {
    Settled,
    Still,
    Spent,
}

/// An axis: its kept diagonal entry and error, both in units of 1/1024, and its row, of which 2^30 stands for 1.
#[derive(Clone, Debug, PartialEq, Eq)]
pub struct Axis {
    pub entry: i64,
    pub error: i64,
    pub row: Vec<i64>,
}

/// What a run ends with; its axes are in channel order.
#[derive(Clone, Debug, PartialEq, Eq)]
pub struct Solution {
    pub outcome: Outcome,
    pub sweeps: u64,
    pub turns: u64,
    pub axes: Vec<Axis>,
}

/// Of eight channels: the most numbers that a run gives.
pub const MOST_NUMBERS: usize = 3 + 8 * 10;

/// The run on a symmetric matrix of n×n numbers, row after row, with at most `limit` sweeps, and a tolerance in units.
/// Refused 5, 6, 8 or 7 for the matrix, then 2 for a limit outside 1 to 16 or a tolerance above 1,048,576.
pub fn solve(n: usize, numbers: &[i64], limit: u64, tolerance: u64) -> Result<Solution, Refused> {
    let mut out = [0; MOST_NUMBERS];
    let count = solve_into(n, numbers, limit, tolerance, &mut out)?;
    let (head, axes) = out[..count].split_at(3);
    Ok(Solution {
        outcome: [Outcome::Settled, Outcome::Still, Outcome::Spent][head[0] as usize],
        sweeps: head[1] as u64,
        turns: head[2] as u64,
        axes: axes
            .chunks(n + 2)
            .map(|axis| Axis {
                entry: axis[0],
                error: axis[1],
                row: axis[2..].to_vec(),
            })
            .collect(),
    })
}

/// The same as numbers, at the front of `out`: the outcome (0 settled, 1 still, 2 spent), the sweeps run, the turns made, then for
/// each axis, in channel order, its entry, its error and its row. The answer is how many they are. Refused 12, last, where `out` is too short; at a
/// refusal it stays as it was.
pub fn solve_into(
    n: usize,
    numbers: &[i64],
    limit: u64,
    tolerance: u64,
    out: &mut [i64],
) -> Result<usize, Refused> {
    // Safe: both slices are whole, and borrowed for the call; the function has no other requirement.
    answer(unsafe {
        raw::field_axes_solve(
            n,
            numbers.as_ptr(),
            numbers.len(),
            limit,
            tolerance,
            out.as_mut_ptr(),
            out.len(),
        )
    })
}

/// The table of some samples: the exact sums S and the entries rnd(S/2^e), both n×n, row after row.
#[derive(Clone, Debug, PartialEq, Eq)]
pub struct Table {
    pub e: u32,
    pub sums: Vec<i64>,
    pub entries: Vec<i64>,
}

/// Of eight channels: the most numbers that a table gives.
pub const MOST_TABLE_NUMBERS: usize = 1 + 2 * 64;

/// The table of samples: a dilution each, and n counts each, sample after sample. Refused 2 where n is outside 2 to 8, a dilution
/// outside 1 to 100 or a count above 65,535, then 6 where the counts are not n to a sample, then 3 for fewer than 2 or more than 256
/// samples.
pub fn table(n: usize, dilutions: &[u32], counts: &[u32]) -> Result<Table, Refused> {
    let mut out = [0; MOST_TABLE_NUMBERS];
    let count = table_into(n, dilutions, counts, &mut out)?;
    let (sums, entries) = out[1..count].split_at(n * n);
    Ok(Table {
        e: out[0] as u32,
        sums: sums.to_vec(),
        entries: entries.to_vec(),
    })
}

/// The same as numbers, at the front of `out`: the shift e, the sums, the entries. The answer is how many they are. Refused 12, last,
/// where `out` is too short; at a refusal it stays as it was.
pub fn table_into(
    n: usize,
    dilutions: &[u32],
    counts: &[u32],
    out: &mut [i64],
) -> Result<usize, Refused> {
    // Safe: the slices are whole, and borrowed for the call; the function has no other requirement.
    answer(unsafe {
        raw::field_axes_table(
            n,
            dilutions.as_ptr(),
            dilutions.len(),
            counts.as_ptr(),
            counts.len(),
            out.as_mut_ptr(),
            out.len(),
        )
    })
}

/// The most bytes that a job text has.
pub const MOST_JOB_BYTES: usize = 13_845;

/// The job text of n, the sweep limit, the tolerance in units, and samples: a dilution each, and n counts each, sample after sample. Refused 2
/// where n is outside 2 to 8, the limit outside 1 to 16, the tolerance above 1,048,576, a dilution outside 1 to 100 or a count above 65,535,
/// then 6 where the counts are not n to a sample, then 3 for fewer than 2 or more than 256 samples.
pub fn job(
    n: usize,
    limit: u64,
    tolerance: u64,
    dilutions: &[u32],
    counts: &[u32],
) -> Result<String, Refused> {
    let mut out = [0; MOST_JOB_BYTES];
    let length = job_into(n, limit, tolerance, dilutions, counts, &mut out)?;
    Ok(out[..length].iter().copied().map(char::from).collect())
}

/// The same at the front of `out`; its other bytes stay. The answer is the text's length. Refused 12, last, where `out` is too short; at a
/// refusal it stays as it was.
pub fn job_into(
    n: usize,
    limit: u64,
    tolerance: u64,
    dilutions: &[u32],
    counts: &[u32],
    out: &mut [u8],
) -> Result<usize, Refused> {
    // Safe: the slices are whole, and borrowed for the call; the function has no other requirement.
    answer(unsafe {
        raw::field_axes_job(
            n,
            limit,
            tolerance,
            dilutions.as_ptr(),
            dilutions.len(),
            counts.as_ptr(),
            counts.len(),
            out.as_mut_ptr(),
            out.len(),
        )
    })
}

/// The refusal of a job text: its number, and the line, from 1. The line of number 12 is 0: a short buffer is of no line.
#[derive(Clone, Copy, Debug, PartialEq, Eq)]
pub struct JobRefused {
    pub number: u32,
    pub line: usize,
}

/// The most bytes that a report has.
pub const MOST_REPORT_BYTES: usize = 2048;

/// The report of a job text: its axes by their diagonal entry, largest first, equal entries in channel order. Refused 1 to 4, with the line.
pub fn report(text: &[u8]) -> Result<String, JobRefused> {
    let mut out = [0; MOST_REPORT_BYTES];
    let length = report_into(text, &mut out)?;
    Ok(out[..length].iter().copied().map(char::from).collect())
}

/// The same at the front of `out`; its other bytes stay. The answer is the report's length. Refused 12, last, where `out` is too short;
/// at a refusal it stays as it was.
pub fn report_into(text: &[u8], out: &mut [u8]) -> Result<usize, JobRefused> {
    let mut line = 0;
    // Safe: both slices and the number are whole, and borrowed for the call; the function has no other requirement.
    let length = unsafe {
        raw::field_axes_report(
            text.as_ptr(),
            text.len(),
            out.as_mut_ptr(),
            out.len(),
            &mut line,
        )
    };
    answer(length).map_err(|Refused(number)| JobRefused { number, line })
}

/// A job as it is handed over: n, the sweep limit, the tolerance in units, and samples: a dilution each, and n counts each, sample after sample.
#[derive(Clone, Copy, Debug)]
pub struct Job<'a> {
    pub n: usize,
    pub limit: u64,
    pub tolerance: u64,
    pub dilutions: &'a [u32],
    pub counts: &'a [u32],
}

/// The report of two jobs pooled: that of a job with the first one's samples followed by the other one's, and with the first one's limit and
/// tolerance. Refused 13 where the two numbers of channels are unequal, then 2, 6 and 3 of the first job as of `job`, then 2, 6 and 3 of the other
/// one, then 3 for more than 256 samples together.
pub fn pool(first: &Job, other: &Job) -> Result<String, Refused> {
    let mut out = [0; MOST_REPORT_BYTES];
    let length = pool_into(first, other, &mut out)?;
    Ok(out[..length].iter().copied().map(char::from).collect())
}

/// The same at the front of `out`; its other bytes stay. The answer is the report's length. Refused 12, last, where `out` is too short;
/// at a refusal it stays as it was.
pub fn pool_into(first: &Job, other: &Job, out: &mut [u8]) -> Result<usize, Refused> {
    // Safe: the slices are whole, and borrowed for the call; the function has no other requirement.
    answer(unsafe {
        raw::field_axes_pool(
            first.n,
            first.limit,
            first.tolerance,
            first.dilutions.as_ptr(),
            first.dilutions.len(),
            first.counts.as_ptr(),
            first.counts.len(),
            other.n,
            other.limit,
            other.tolerance,
            other.dilutions.as_ptr(),
            other.dilutions.len(),
            other.counts.as_ptr(),
            other.counts.len(),
            out.as_mut_ptr(),
            out.len(),
        )
    })
}

/// The most bytes that the answer to a call has.
pub const MOST_ANSWER_BYTES: usize = 256;

/// The answers to a text of calls, a line each, played on a fresh record. Fields are parted by one tab; after the tag comes the bench that calls,
/// 1 to 4: `L` bench n numbers, `M` bench n k dilutions counts, `T` bench p q, `W` bench, `O` bench, `Q` bench t, `A` bench i. A refused call is
/// answered `X`, its number, and how many calls of benches 1 to 4 were refused so far, four numbers; a bench outside 1 to 4 gives 15, before every
/// other refusal, and is not counted. The answers end with the first line that is no call.
pub fn calls(text: &[u8]) -> String {
    let lines = text.iter().filter(|&&byte| byte == b'\n').count() + 1;
    let mut out = vec![0; lines * MOST_ANSWER_BYTES];
    let length = calls_into(text, &mut out).expect("room for every answer");
    out[..length].iter().copied().map(char::from).collect()
}

/// The same at the front of `out`; its other bytes stay. The answer is their length. Refused 12 where `out` is too short; it then stays
/// as it was.
pub fn calls_into(text: &[u8], out: &mut [u8]) -> Result<usize, Refused> {
    // Safe: both slices are whole, and borrowed for the call; the function has no other requirement.
    answer(unsafe { raw::field_axes_calls(text.as_ptr(), text.len(), out.as_mut_ptr(), out.len()) })
}

/// The most bytes that the line of a season has.
pub const MOST_SEASON_BYTES: usize = 84;

/// The line of a season of job texts: jobs, how many ended settled, still and spent, how many were refused under each number 1 to 4, total turns, the
/// largest error, the first job that has it, from 1, and its lowest axis that has it; these three are 0 where no job was accepted. Refused 16 for
/// more than 10,000 jobs.
pub fn season(texts: &[&[u8]]) -> Result<String, Refused> {
    let length = |end: &mut usize, text: &&[u8]| {
        *end += text.len();
        Some(*end)
    };
    let ends: Vec<usize> = texts.iter().scan(0, length).collect();
    let mut out = [0; MOST_SEASON_BYTES];
    let length = season_into(&texts.concat(), &ends, &mut out)?;
    Ok(out[..length].iter().copied().map(char::from).collect())
}

/// The same of texts one after another in one buffer, and the end of each, at the front of `out`; its other bytes stay. The answer is the line's
/// length. Refused 2 for an end below the one before it or beyond the buffer, then 16, then 12 where `out` is too short; at a refusal it stays as it
/// was.
pub fn season_into(texts: &[u8], ends: &[usize], out: &mut [u8]) -> Result<usize, Refused> {
    // Safe: the slices are whole, and borrowed for the call; the function has no other requirement.
    answer(unsafe {
        raw::field_axes_season(
            texts.as_ptr(),
            texts.len(),
            ends.as_ptr(),
            ends.len(),
            out.as_mut_ptr(),
            out.len(),
        )
    })
}

/// The most bytes that all panels of a size have.
pub const MOST_PANELS_BYTES: usize = 92_706;

/// All symmetric matrices of two channels with entries from −b to b, by a_11, then a_12, then a_22, smallest first, a line each: these three
/// entries, then the sweeps run, the turns made and the outcome of a run with limit 16 and tolerance 0. Refused 2 for a b outside 0 to 8.
pub fn panels(b: i64) -> Result<String, Refused> {
    let mut out = vec![0; MOST_PANELS_BYTES];
    let length = panels_into(b, &mut out)?;
    Ok(out[..length].iter().copied().map(char::from).collect())
}

/// The same at the front of `out`; its other bytes stay. The answer is their length. Refused 12, last, where `out` is too short; at a refusal it
/// stays as it was.
pub fn panels_into(b: i64, out: &mut [u8]) -> Result<usize, Refused> {
    // Safe: the slice is whole, and borrowed for the call; the function has no other requirement.
    answer(unsafe { raw::field_axes_panels(b, out.as_mut_ptr(), out.len()) })
}

/// The panel at a position of that list, from 1: a_11, a_12, a_22. Refused 2 for a b outside 0 to 8 or a position outside 1 to (2b+1)³.
pub fn panel(b: i64, position: i64) -> Result<[i64; 3], Refused> {
    let mut out = [0; 3];
    panel_into(b, position, &mut out)?;
    Ok(out)
}

/// The same at the front of `out`; its other numbers stay. The answer is 3. Refused 12, last, where `out` is too short; at a refusal it stays
/// as it was.
pub fn panel_into(b: i64, position: i64, out: &mut [i64]) -> Result<usize, Refused> {
    // Safe: the slice is whole, and borrowed for the call; the function has no other requirement.
    answer(unsafe { raw::field_axes_panel(b, position, out.as_mut_ptr(), out.len()) })
}

/// The position in that list, from 1, of the panel of these entries: a_11, a_12, a_22. Refused 2 for a b outside 0 to 8 or an entry beyond ±b.
pub fn panel_position(b: i64, [a11, a12, a22]: [i64; 3]) -> Result<usize, Refused> {
    // Safe: the function has no requirement.
    answer(unsafe { raw::field_axes_panel_position(b, a11, a12, a22) })
}

/// A count or a position, or a refusal's number negated.
fn answer(count: i64) -> Result<usize, Refused> {
    usize::try_from(count).map_err(|_| Refused(count.unsigned_abs() as u32))
}
