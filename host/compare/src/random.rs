//! A small generator of random numbers (splitmix64): the same numbers for the same seed, kind and number of a case.

pub struct Random(u64);

impl Random {
    pub fn new(seed: u64, kind: u64, number: u64) -> Random {
        let mut mixed = Random(seed);
        mixed.0 = mixed.next() ^ kind;
        mixed.0 = mixed.next() ^ number;
        Random(mixed.next())
    }

    #[allow(clippy::should_implement_trait)] // it never ends, so it is no iterator
    pub fn next(&mut self) -> u64 {
        self.0 = self.0.wrapping_add(0x9E37_79B9_7F4A_7C15);
        let mixed = (self.0 ^ (self.0 >> 30)).wrapping_mul(0xBF58_476D_1CE4_E5B9);
        let mixed = (mixed ^ (mixed >> 27)).wrapping_mul(0x94D0_49BB_1331_11EB);
        mixed ^ (mixed >> 31)
    }

    /// A number from 0 to `end` − 1.
    pub fn below(&mut self, end: u64) -> u64 {
        ((u128::from(self.next()) * u128::from(end)) >> 64) as u64
    }

    pub fn index(&mut self, end: usize) -> usize {
        self.below(end as u64) as usize
    }

    /// True once in `turns` times.
    pub fn one_in(&mut self, turns: u64) -> bool {
        self.below(turns) == 0
    }

    pub fn pick<T: Copy>(&mut self, list: &[T]) -> T {
        list[self.index(list.len())]
    }

    /// A number at most `most` away from `centre`, around the end of the numbers if need be.
    pub fn near(&mut self, centre: u64, most: u64) -> u64 {
        centre.wrapping_sub(most).wrapping_add(self.below(2 * most + 1))
    }
}
