//! A text of calls and its answers.

use crate::random::Random;
use field_axes::{calls_into, Refused};
use reference::calls::TEXT_LIMIT;

/// Compares one call; the answer is what kind it came to.
pub fn case(seed: u64) -> Result<String, String> {
    let random = &mut Random::new(seed);
    let mut text = reference::generate_calls(seed);
    // The reference plays at most so many bytes.
    text.truncate(TEXT_LIMIT);
    let answers = reference::calls_of(&text);
    // Buffers that the answers fit, that they fill, and that are too short for them.
    let size = match random.between(0, 7) {
        0 => answers.len(),
        1 => answers.len().saturating_sub(1),
        2 => random.between(0, answers.len() as i64) as usize,
        _ => answers.len() + 8,
    };
    let entry = random.bytes(size);
    let mut out = entry.clone();
    let got = calls_into(&text, &mut out);
    let mut expected = entry;
    let wanted = match expected.get_mut(..answers.len()) {
        Some(front) => {
            front.copy_from_slice(&answers);
            Ok(answers.len())
        }
        None => Err(Refused(12)),
    };
    if got != wanted || out != expected {
        return Err(format!(
            "calls {:?}, size {size}: {got:?} {:?}, and the reference has {wanted:?} {:?}",
            shown(&text),
            shown(&out),
            shown(&expected)
        ));
    }
    // The function that makes a buffer of its own.
    let own = field_axes::calls(&text);
    if own.as_bytes() != answers {
        return Err(format!(
            "calls {:?}: {own:?}, and the reference has {:?}",
            shown(&text),
            shown(&answers)
        ));
    }
    let by_no_bench = answers.windows(5).any(|bytes| bytes == b"X\t15\t");
    Ok(match got {
        Ok(_) if answers.contains(&b'?') => "played up to a line that is no call".to_string(),
        Ok(_) if by_no_bench => "played, some by a bench outside 1 to 4".to_string(),
        Ok(_) => "played".to_string(),
        Err(Refused(number)) => format!("refused {number}"),
    })
}

/// The first bytes of a text, to be printed.
fn shown(text: &[u8]) -> std::borrow::Cow<'_, str> {
    String::from_utf8_lossy(&text[..text.len().min(400)])
}
