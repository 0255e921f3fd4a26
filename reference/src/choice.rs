//! Document 01, "Choosing a turn".

use crate::thresholds::{threshold, COUNT, TANGENT_ONE};

/// A chosen turn: l from 1 to 14 and the sign f, +1 or −1.
#[derive(Clone, Copy, Debug, PartialEq, Eq)]
pub struct Choice {
    pub l: u32,
    pub f: i128,
}

/// The turn chosen for a pair with these entries; none if a_pq = 0 or no l fits.
pub fn choose(a_pp: i128, a_qq: i128, a_pq: i128) -> Option<Choice> {
    if a_pq == 0 {
        return None;
    }
    let y = 2 * a_pq.abs();
    let g = (a_qq - a_pp).abs();
    let l = (1..=COUNT).find(|&l| y * TANGENT_ONE >= threshold(l) * g)?;
    let f = if (a_pq < 0) != (a_qq - a_pp < 0) {
        1
    } else {
        -1
    };
    Some(Choice { l, f })
}
