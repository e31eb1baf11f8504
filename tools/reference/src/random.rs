//! A small seeded source of random numbers (splitmix64).

use std::ops::RangeInclusive;

pub struct Random(u64);

impl Random {
    /// The source of one numbered file, so that a file does not depend on how many others are made.
    pub fn for_file(seed: u64, number: u64) -> Random {
        let mut of_seed = Random(seed);
        let mut of_file = Random(of_seed.next() ^ number);
        Random(of_file.next())
    }

    fn next(&mut self) -> u64 {
        self.0 = self.0.wrapping_add(0x9E37_79B9_7F4A_7C15);
        let mixed = (self.0 ^ (self.0 >> 30)).wrapping_mul(0xBF58_476D_1CE4_E5B9);
        let mixed = (mixed ^ (mixed >> 27)).wrapping_mul(0x94D0_49BB_1331_11EB);
        mixed ^ (mixed >> 31)
    }

    /// A number below a limit, which is not 0.
    pub fn below(&mut self, limit: usize) -> usize {
        (self.next() % limit as u64) as usize
    }

    pub fn within(&mut self, range: RangeInclusive<usize>) -> usize {
        range.start() + self.below(range.end() - range.start() + 1)
    }

    /// A byte below a limit, which is not 0.
    pub fn byte_below(&mut self, limit: u8) -> u8 {
        self.below(usize::from(limit)) as u8
    }

    pub fn byte_within(&mut self, range: RangeInclusive<u8>) -> u8 {
        self.within(usize::from(*range.start())..=usize::from(*range.end())) as u8
    }

    pub fn byte(&mut self) -> u8 {
        self.next() as u8
    }

    pub fn bytes(&mut self, count: usize) -> Vec<u8> {
        (0..count).map(|_| self.byte()).collect()
    }

    /// True in so many of a hundred cases.
    pub fn chance(&mut self, percent: usize) -> bool {
        self.below(100) < percent
    }

    /// One of some items, of which there is at least one.
    pub fn pick<T: Copy>(&mut self, items: &[T]) -> T {
        items[self.below(items.len())]
    }

    pub fn shuffle<T>(&mut self, items: &mut [T]) {
        for last in (1..items.len()).rev() {
            items.swap(last, self.below(last + 1));
        }
    }
}
