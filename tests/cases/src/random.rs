//! Reproducible random values.

use std::ops::RangeInclusive;

/// The generator splitmix64.
pub struct Random(u64);

impl Random {
    /// A generator whose values depend on the seed alone.
    pub fn new(seed: u64) -> Self {
        Self(seed)
    }

    /// The next 64 bits.
    pub fn bits(&mut self) -> u64 {
        self.0 = self.0.wrapping_add(0x9e37_79b9_7f4a_7c15);
        let mixed = (self.0 ^ (self.0 >> 30)).wrapping_mul(0xbf58_476d_1ce4_e5b9);
        let mixed = (mixed ^ (mixed >> 27)).wrapping_mul(0x94d0_49bb_1331_11eb);
        mixed ^ (mixed >> 31)
    }

    /// Some byte.
    pub fn byte(&mut self) -> u8 {
        self.bits() as u8
    }

    /// That many bytes.
    pub fn bytes(&mut self, count: usize) -> Vec<u8> {
        (0..count).map(|_| self.byte()).collect()
    }

    /// So many bytes as some value of the range says.
    pub fn bytes_within(&mut self, counts: RangeInclusive<usize>) -> Vec<u8> {
        let count = self.within(counts);
        self.bytes(count)
    }

    /// A value of the range.
    pub fn within(&mut self, range: RangeInclusive<usize>) -> usize {
        let count = range.end() - range.start() + 1;
        range.start() + self.bits() as usize % count
    }

    /// One of the choices.
    pub fn pick<T: Copy>(&mut self, choices: &[T]) -> T {
        choices[self.within(0..=choices.len() - 1)]
    }
}
