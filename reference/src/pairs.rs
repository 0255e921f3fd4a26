//! The pairs p < q of n channels, in the orders that sweeps take them.

/// A pair p < q.
pub type Pair = (usize, usize);

/// Document 01: (1,2), (1,3) .. (1,n), (2,3) .. (n−1,n).
pub fn by_row(n: usize) -> Vec<Pair> {
    (1..=n)
        .flat_map(|p| (p + 1..=n).map(move |q| (p, q)))
        .collect()
}

/// Document 02, W10: round after round, in a round "left to right, each as (smaller, larger)".
pub fn tournament(n: usize) -> Vec<Pair> {
    // "An odd n is played as n + 1, and pairs that name n + 1 are skipped."
    let players = n + n % 2;
    // "the upper line starts 1, 3, 5 .. and the lower 2, 4, 6 .."
    let mut upper: Vec<usize> = (1..=players).step_by(2).collect();
    let mut lower: Vec<usize> = (2..=players).step_by(2).collect();
    // "There are n − 1 rounds for even n and n for odd."
    let rounds = if n % 2 == 0 { n - 1 } else { n };
    let mut pairs = Vec::new();
    for _ in 0..rounds {
        let round = upper.iter().zip(&lower);
        pairs.extend(
            round
                .map(|(&above, &below)| (above.min(below), above.max(below)))
                .filter(|&(_, larger)| larger <= n),
        );
        (upper, lower) = moved(&upper, &lower);
    }
    pairs
}

/// The two lines after a round.
fn moved(upper: &[usize], lower: &[usize]) -> (Vec<usize>, Vec<usize>) {
    // "with n = 2 nothing moves"
    if upper.len() == 1 {
        return (upper.to_vec(), lower.to_vec());
    }
    let last = upper.len() - 1;
    // "the first upper number stays, the first lower one becomes second upper, the other upper ones move right"
    let new_upper = [&upper[..1], &lower[..1], &upper[1..last]].concat();
    // "the last upper one becomes last lower, and the other lower ones move left"
    let new_lower = [&lower[1..], &upper[last..]].concat();
    (new_upper, new_lower)
}

#[cfg(test)]
mod tests {
    use super::*;

    /// "Each pair comes exactly once in a sweep."
    #[test]
    fn a_tournament_has_each_pair_exactly_once() {
        for n in 2..=8 {
            let mut pairs = tournament(n);
            pairs.sort();
            assert_eq!(pairs, by_row(n), "n = {n}");
        }
    }

    /// Source document 000, Table 3.1: the lines at the start and after one round; then three rounds more, moved by hand.
    #[test]
    fn the_rounds_of_8_begin_as_in_table_3_1() {
        let pairs = tournament(8);
        let rounds: Vec<&[Pair]> = pairs.chunks(4).collect();
        assert_eq!(rounds.len(), 7);
        assert_eq!(rounds[0], [(1, 2), (3, 4), (5, 6), (7, 8)]);
        assert_eq!(rounds[1], [(1, 4), (2, 6), (3, 8), (5, 7)]);
        // Upper 1, 4, 2, 3 and lower 6, 8, 7, 5; then 1, 6, 4, 2 and 8, 7, 5, 3; then 1, 8, 6, 4 and 7, 5, 3, 2.
        assert_eq!(rounds[2], [(1, 6), (4, 8), (2, 7), (3, 5)]);
        assert_eq!(rounds[3], [(1, 8), (6, 7), (4, 5), (2, 3)]);
        assert_eq!(rounds[4], [(1, 7), (5, 8), (3, 6), (2, 4)]);
    }

    #[test]
    fn small_tournaments_by_hand() {
        assert_eq!(tournament(2), [(1, 2)]);
        // As 4: (1,2) (3,4), then (1,4) (2,3), then (1,3) (2,4), without those that name 4.
        assert_eq!(tournament(3), [(1, 2), (2, 3), (1, 3)]);
        assert_eq!(
            tournament(4),
            [(1, 2), (3, 4), (1, 4), (2, 3), (1, 3), (2, 4)]
        );
        // As 6: upper 1, 3, 5 and lower 2, 4, 6; 1, 2, 3 and 4, 6, 5; 1, 4, 2 and 6, 5, 3; 1, 6, 4 and 5, 3, 2; 1, 5, 6 and 3, 2, 4.
        assert_eq!(
            tournament(5),
            [
                (1, 2),
                (3, 4),
                (1, 4),
                (3, 5),
                (4, 5),
                (2, 3),
                (1, 5),
                (2, 4),
                (1, 3),
                (2, 5)
            ]
        );
    }

    /// The pairs of a round are disjoint, so an array can turn them together.
    #[test]
    fn the_pairs_of_a_round_are_disjoint() {
        for n in [2, 4, 6, 8] {
            for round in tournament(n).chunks(n / 2) {
                let mut named: Vec<usize> = round.iter().flat_map(|&(p, q)| [p, q]).collect();
                named.sort();
                assert!(named.into_iter().eq(1..=n), "n = {n}: {round:?}");
            }
        }
    }
}
