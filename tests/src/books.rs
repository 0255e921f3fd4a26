//! A text of calls on a book of samples, and what it prints.

use crate::random::Random;
use field_axes::{summary, summary_into, Refused, MOST_SUMMARY_BYTES};
use reference::calls::TEXT_LIMIT;

/// A table of nearly as many bytes as a call prints at most, again and again. Of channels that are strong in turn it has the longest numbers, half of
/// them below 0.
pub fn longest() -> Result<(), String> {
    const TABLES: usize = 1_000;
    let add = |strong: usize| {
        let count = |i: usize| if i % 2 == strong { "\t65535" } else { "\t0" };
        format!("A\t100{}\n", (0..8).map(count).collect::<String>())
    };
    let book = "N\t8\n".to_string() + &(add(0) + &add(1)).repeat(128);
    let text = book.clone() + &"T\n".repeat(TABLES);
    let printed = reference::summary_of(text.as_bytes());
    let before = reference::summary_of(book.as_bytes()).len();
    let table = (printed.len() - before) / TABLES;
    if summary(text.as_bytes()).as_bytes() != printed
        || !(1_291..=MOST_SUMMARY_BYTES).contains(&table)
    {
        return Err(format!(
            "the longest table has {table} bytes by the reference, and the buffer {MOST_SUMMARY_BYTES} for each; or it is another"
        ));
    }
    Ok(())
}

/// Compares one call; the answer is what kind it came to.
pub fn case(seed: u64) -> Result<String, String> {
    let random = &mut Random::new(seed);
    let mut text = reference::generate_book(seed);
    // The reference plays at most so many bytes.
    text.truncate(TEXT_LIMIT);
    let printed = reference::summary_of(&text);
    // Buffers that it fits, that it fills, and that are too short for it, also by one byte.
    let size = match random.between(0, 7) {
        0 => printed.len(),
        1 => printed.len().saturating_sub(1),
        2 => random.between(0, printed.len() as i64) as usize,
        3 => 0,
        _ => printed.len() + 8,
    };
    let entry = random.bytes(size);
    let mut out = entry.clone();
    let got = summary_into(&text, &mut out);
    let mut expected = entry;
    let wanted = match expected.get_mut(..printed.len()) {
        Some(front) => {
            front.copy_from_slice(&printed);
            Ok(printed.len())
        }
        None => Err(Refused(12)),
    };
    if got != wanted || out != expected {
        return Err(format!(
            "calls {:?}, size {size}: {got:?} {:?}, and the reference has {wanted:?} {:?}",
            shown(&text),
            shown(&out),
            shown(&expected)
        ));
    }
    // The function that makes a buffer of its own.
    let own = summary(&text);
    if own.as_bytes() != printed {
        return Err(format!(
            "calls {:?}: {own:?}, and the reference has {:?}",
            shown(&text),
            shown(&printed)
        ));
    }
    let has = |answer: &[u8]| printed.windows(answer.len()).any(|bytes| bytes == answer);
    Ok(match got {
        Ok(_) if has(b"?") => "played up to a line that is no call",
        Ok(_) if has(b"\nA\t256\n") => "played, with a book that was full",
        Ok(_) if has(b"X\t14\n") => "played, with a strike of none",
        Ok(_) if has(b"\nT\t") => "played, with a table",
        Ok(_) => "played",
        Err(Refused(12)) if size + 1 == printed.len() => "refused 12 for one byte",
        Err(Refused(12)) => "refused 12",
        Err(_) => "refused otherwise",
    }
    .to_string())
}

/// The first bytes of a text, to be printed.
fn shown(text: &[u8]) -> std::borrow::Cow<'_, str> {
    String::from_utf8_lossy(&text[..text.len().min(400)])
}
