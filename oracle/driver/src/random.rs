//! Numbers that look random and depend on the seed alone (SplitMix64), so that a script can be
//! made again.

pub struct Random {
    state: u64,
}

impl Random {
    pub fn new(seed: u64) -> Self {
        Self { state: seed }
    }

    pub fn next(&mut self) -> u64 {
        self.state = self.state.wrapping_add(0x9e37_79b9_7f4a_7c15);
        let mut mixed = self.state;
        mixed = (mixed ^ (mixed >> 30)).wrapping_mul(0xbf58_476d_1ce4_e5b9);
        mixed = (mixed ^ (mixed >> 27)).wrapping_mul(0x94d0_49bb_1331_11eb);
        mixed ^ (mixed >> 31)
    }

    /// A number below `end`, which is not 0.
    pub fn below(&mut self, end: usize) -> usize {
        (self.next() % end as u64) as usize
    }

    pub fn bytes(&mut self, len: usize) -> Vec<u8> {
        (0..len).map(|_| self.next() as u8).collect()
    }

    /// A number of any size: one of at most `bits` bits, small ones as likely as large ones.
    pub fn sized(&mut self, bits: usize) -> u64 {
        match self.below(bits + 1) {
            0 => 0,
            size => self.next() >> (64 - size),
        }
    }

    /// One of these values, which are not none.
    pub fn pick<T: Copy>(&mut self, values: &[T]) -> T {
        values[self.below(values.len())]
    }
}

#[cfg(test)]
mod tests {
    use super::*;
    use std::collections::BTreeSet;

    #[test]
    fn the_published_first_values() {
        let mut random = Random::new(1_234_567);
        assert_eq!(random.next(), 6_457_827_717_110_365_317);
        assert_eq!(random.next(), 3_203_168_211_198_807_973);
    }

    #[test]
    fn sized_numbers_fit_and_have_every_size() {
        let random = &mut Random::new(1);
        let sizes: BTreeSet<u32> =
            (0..10_000).map(|_| u64::BITS - random.sized(63).leading_zeros()).collect();
        assert_eq!(sizes, (0..=63).collect());
        assert!((0..1000).all(|_| random.sized(0) == 0));
    }

    #[test]
    fn every_value_is_picked() {
        let random = &mut Random::new(1);
        let picked: BTreeSet<u8> = (0..1000).map(|_| random.pick(b"abc")).collect();
        assert_eq!(picked, BTreeSet::from(*b"abc"));
    }
}
