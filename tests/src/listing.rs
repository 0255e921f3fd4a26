//! All small panels: their text, the panel of a position, and the position of a panel.

use crate::random::Random;
use field_axes::{panel, panel_into, panel_position, panels, panels_into, Refused};
use reference::panels as by;
use std::sync::OnceLock;

/// What stands in the lent buffer of numbers before the call; in that of bytes random ones do.
const FILL: i64 = -7_777_777;

/// Compares one call of one of the three; the answer is what kind it came to.
pub fn case(seed: u64) -> Result<String, String> {
    let random = &mut Random::new(seed);
    match random.between(0, 9) {
        0 | 1 => text(random),
        2..=5 => at_position(random),
        _ => position_of(random),
    }
}

/// A size: mostly from 0 to most, else outside 0 to 8.
fn size(random: &mut Random, most: i64) -> i64 {
    let any = random.next() as i64;
    match random.between(0, 9) {
        0 => random.pick(&[-1, 9, 10, i64::MIN, i64::MAX, -8, any]),
        1 => random.pick(&[0, most]),
        _ => random.between(0, most),
    }
}

/// The reference's text of a size, computed once.
fn text_of(b: i64) -> Result<&'static [u8], Refused> {
    static TEXTS: [OnceLock<String>; 9] = [const { OnceLock::new() }; 9];
    let place = usize::try_from(b).ok().filter(|&place| place < TEXTS.len());
    let text = TEXTS[place.ok_or(Refused(2))?].get_or_init(|| by::text(b.into()).expect("a size"));
    Ok(text.as_bytes())
}

/// Mostly of small sizes: the lines of a large one are thousands.
fn text(random: &mut Random) -> Result<String, String> {
    let most = if random.one_in(100) { 8 } else { 2 };
    let b = size(random, most);
    let text = text_of(b);
    // The function that makes a buffer of its own.
    let own = panels(b).map(String::into_bytes);
    if own.as_deref() != text.as_deref() {
        return Err(format!("panels of {b}: not the reference's"));
    }
    let length = text.map_or(100, <[u8]>::len);
    let size = match random.between(0, 7) {
        0 | 1 => length,
        2 => length - 1,
        3 => random.between(0, length as i64) as usize,
        _ => length + 8,
    };
    let entry = random.bytes(size);
    let mut out = entry.clone();
    let got = panels_into(b, &mut out);
    let mut expected = entry;
    let wanted = text.and_then(|text| {
        let front = expected.get_mut(..text.len()).ok_or(Refused(12))?;
        front.copy_from_slice(text);
        Ok(text.len())
    });
    if got != wanted || out != expected {
        return Err(format!(
            "panels of {b}, buffer of {size}: {got:?}, and the reference has {wanted:?}; the buffers are {}",
            if out == expected { "equal" } else { "unequal" }
        ));
    }
    Ok(match got {
        Ok(_) if b == 8 => "all listed, size 8".to_string(),
        Ok(_) => "all listed".to_string(),
        Err(Refused(number)) => format!("text refused {number}"),
    })
}

fn at_position(random: &mut Random) -> Result<String, String> {
    let b = size(random, 8);
    let most = (2 * b.clamp(0, 8) + 1).pow(3);
    let any = random.next() as i64;
    let position = match random.between(0, 9) {
        0 => random.pick(&[0, -1, most + 1, i64::MIN, i64::MAX, any]),
        1 => random.pick(&[1, most]),
        _ => random.between(1, most),
    };
    let room = random.pick(&[3, 3, 3, 4, 8, 0, 1, 2]);
    let mut out = vec![FILL; room];
    let got = panel_into(b, position, &mut out);
    let entries = by::panel(b.into(), position.into())
        .map(|entries| entries.map(|entry| entry as i64))
        .map_err(|number| Refused(number as u32));
    let mut expected = vec![FILL; room];
    let wanted = entries.and_then(|entries| {
        let front = expected.get_mut(..3).ok_or(Refused(12))?;
        front.copy_from_slice(&entries);
        Ok(3)
    });
    // The function that makes a buffer of its own.
    let own = panel(b, position);
    if got != wanted || out != expected || own != entries {
        return Err(format!(
            "panel {position} of {b}, buffer of {room}: {got:?} {out:?} {own:?}, and the reference has {wanted:?} {expected:?} {entries:?}"
        ));
    }
    // The matrix gives its position back.
    if let Ok(entries) = own {
        let back = panel_position(b, entries);
        if back != Ok(position as usize) {
            return Err(format!(
                "panel {position} of {b} is {entries:?}, at {back:?}"
            ));
        }
    }
    Ok(match got {
        Ok(_) => "panel of a position".to_string(),
        Err(Refused(number)) => format!("panel refused {number}"),
    })
}

fn position_of(random: &mut Random) -> Result<String, String> {
    let b = size(random, 8);
    let within = b.clamp(0, 8);
    let mut entries = [0; 3].map(|_: i64| random.between(-within, within));
    if random.one_in(4) {
        let any = random.next() as i64;
        *random.place(&mut entries) =
            random.pick(&[within + 1, -within - 1, 9, -9, i64::MIN, i64::MAX, any]);
    }
    let got = panel_position(b, entries);
    let wanted = by::position(b.into(), entries.map(i128::from))
        .map(|position| position as usize)
        .map_err(|number| Refused(number as u32));
    if got != wanted {
        return Err(format!(
            "position of {entries:?} of {b}: {got:?}, and the reference has {wanted:?}"
        ));
    }
    // The position gives its matrix back.
    if let Ok(position) = got {
        let back = panel(b, position as i64);
        if back != Ok(entries) {
            return Err(format!(
                "{entries:?} of {b} is at {position}, which is {back:?}"
            ));
        }
    }
    Ok(match got {
        Ok(_) => "position of a panel".to_string(),
        Err(Refused(number)) => format!("position refused {number}"),
    })
}
