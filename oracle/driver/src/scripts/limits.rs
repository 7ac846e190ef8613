//! Numbers at which an answer can change, and every way to combine such numbers.

pub const LARGEST_I32: u64 = i32::MAX as u64;
pub const LARGEST_U32: u64 = u32::MAX as u64;
pub const LARGEST_I64: u64 = i64::MAX as u64;

/// The last number before and the first number behind every limit that a field has.
#[rustfmt::skip]
pub const LIMITS: [u64; 11] = [
    0, 1, 8191, 8192, LARGEST_I32, LARGEST_I32 + 1, LARGEST_U32, LARGEST_U32 + 1, LARGEST_I64,
    LARGEST_I64 + 1, u64::MAX,
];

/// The limits with their neighbours on both sides, each once.
pub fn around_limits() -> Vec<u64> {
    let neighbours = |limit: &u64| [limit.saturating_sub(1), *limit, limit.saturating_add(1)];
    let mut around: Vec<u64> = LIMITS.iter().flat_map(neighbours).collect();
    around.sort_unstable();
    around.dedup();
    around
}

/// Every way to take one value from each list; the last one changes first.
pub fn combinations<const N: usize>(lists: [&[u64]; N]) -> impl Iterator<Item = [u64; N]> + '_ {
    let ways: usize = lists.iter().map(|list| list.len()).product();
    (0..ways).map(move |mut nth| {
        let mut taken = [0; N];
        for (value, list) in taken.iter_mut().zip(lists).rev() {
            *value = list[nth % list.len()];
            nth /= list.len();
        }
        taken
    })
}

#[cfg(test)]
mod tests {
    use super::*;

    #[test]
    fn limits_have_both_neighbours() {
        let around = around_limits();
        assert_eq!(around.len(), 21);
        assert!(around.windows(2).all(|pair| pair[0] < pair[1]));
        for wanted in [0, 2, 8190, 8193, (1 << 31) - 2, (1 << 32) + 1, (1 << 63) + 1] {
            assert!(around.contains(&wanted), "{wanted}");
        }
    }

    #[test]
    fn every_combination_occurs_once() {
        let taken: Vec<_> = combinations([&[1, 2], &[3], &[4, 5]]).collect();
        assert_eq!(taken, [[1, 3, 4], [1, 3, 5], [2, 3, 4], [2, 3, 5]]);
        assert_eq!(combinations([&LIMITS; 4]).count(), 14_641);
    }
}
