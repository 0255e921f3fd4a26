//! A book of samples: what adding a sample and striking one cost by how many are held, and against summing anew. The library plays texts of calls
//! alone, so a call's time is that of a text with it less that of the text without it.

use crate::measure::{least, Sequence};
use std::hint::black_box;

/// So often a call stands in its text.
const CALLS: usize = 100;

/// The line that adds a sample of n channels.
fn added(sequence: &mut Sequence, n: usize) -> String {
    let mut line = format!("A\t{}", sequence.next() % 100 + 1);
    for _ in 0..n {
        line += &format!("\t{}", sequence.next() % 65_536);
    }
    line + "\n"
}

/// The times on a book of k samples of n channels: of adding a sample and striking it, of adding one and striking the first, of the same two calls
/// refused, of the summary summed anew, and of the kept one. What is read and printed is in them; the last two print the same.
fn times(n: usize, k: usize) -> [f64; 5] {
    let mut sequence = Sequence(0xb00c + n as u64);
    let mut book = format!("N\t{n}\n");
    for _ in 0..k {
        book += &added(&mut sequence, n);
    }
    let add = added(&mut sequence, n);
    let last = format!("{add}K\t{}\n", k + 1);
    let first = format!("{add}K\t1\n");
    // A dilution of 0, and a strike of one more than are held.
    let counts = add.splitn(3, '\t').nth(2).unwrap_or_default();
    let refused = format!("A\t0\t{counts}K\t{}\n", k + 1);
    let calls = ["", &last, &first, &refused, "B\n", "Z\n"];
    let texts = calls.map(|calls| (book.clone() + &calls.repeat(CALLS)).into_bytes());
    let mut pieces = texts.each_ref().map(|text| {
        let printed = reference::summary_of(text);
        assert_eq!(field_axes::summary(text).as_bytes(), printed);
        let mut out = printed;
        move || {
            let _ = black_box(field_axes::summary_into(black_box(text), &mut out));
        }
    });
    let [alone, with @ ..] = least(pieces.each_mut().map(|piece| piece as &mut dyn FnMut()));
    with.map(|time| (time - alone) / CALLS as f64)
}

/// Prints the figures.
pub fn measure() {
    println!("a book of k samples, ratios: adding a sample and striking it, to the same with k = 2; striking the first in place of it, to that;");
    println!("both calls refused, to that; and to a summary summed anew (less what the kept one costs, which prints the same) adding and striking,");
    println!("whole, and less what both calls cost refused");
    println!("n    k  to k = 2   first  refused  to anew    less");
    for n in [2, 8] {
        let [few, ..] = times(n, 2);
        for k in [2, 16, 64, 255] {
            let [last, first, refused, anew, kept] = times(n, k);
            println!(
                "{n} {k:4} {:9.2} {:7.2} {:8.2} {:8.2} {:7.2}",
                last / few,
                first / last,
                refused / last,
                last / (anew - kept),
                (last - refused) / (anew - kept)
            );
        }
    }
}
