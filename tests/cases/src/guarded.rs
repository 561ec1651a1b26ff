//! Buffers to lend, with bytes around them that no call may write.

use crate::hex::Hex;
use crate::random::Random;
use std::ops::Range;

/// So many bytes stand before and after the buffer.
const GUARD: usize = 8;

/// A buffer between guards. Two are equal if all their bytes are, the guards' too.
#[derive(Clone, Debug, PartialEq)]
pub struct Guarded(Hex);

impl Guarded {
    /// A buffer of this many bytes, filled at random.
    pub fn any(random: &mut Random, length: usize) -> Self {
        Self(Hex(random.bytes(GUARD + length + GUARD)))
    }

    /// A buffer of these bytes.
    pub fn of(random: &mut Random, bytes: &[u8]) -> Self {
        let guards = [(); 2].map(|()| random.bytes(GUARD));
        Self(Hex([&guards[0], bytes, &guards[1]].concat()))
    }

    /// A buffer with these bytes, mostly as they are, else cut or lengthened.
    pub fn resized(random: &mut Random, mut bytes: Vec<u8>) -> Self {
        let last = bytes.len() - 1;
        match random.within(0..=31) {
            0 => bytes.truncate(random.within(0..=last)),
            1 => bytes.truncate(random.pick(&[0, last])),
            2..=8 => bytes.extend(random.bytes_within(1..=30)),
            _ => {}
        }
        Self::of(random, &bytes)
    }

    /// The first and the last byte that differ from those before, counted from the buffer's
    /// start, and the bytes from the one to the other. The guard before it has negative numbers.
    pub fn changed(&self, before: &Self) -> Option<(Range<isize>, Hex)> {
        let differs = |(after, before): (&u8, &u8)| after != before;
        let mut pairs = self.0 .0.iter().zip(&before.0 .0);
        let first = pairs.clone().position(differs)?;
        let end = pairs.rposition(differs)? + 1;
        let place = |index: usize| index as isize - GUARD as isize;
        let bytes = Hex(self.0 .0[first..end].to_vec());
        Some((place(first)..place(end), bytes))
    }

    /// The buffer without its guards.
    pub fn bytes(&self) -> &[u8] {
        &self.0 .0[self.inner()]
    }

    /// The buffer without its guards, to be lent.
    pub fn bytes_mut(&mut self) -> &mut [u8] {
        let inner = self.inner();
        &mut self.0 .0[inner]
    }

    /// Where the buffer stands between its guards.
    fn inner(&self) -> Range<usize> {
        GUARD..self.0 .0.len() - GUARD
    }
}

#[cfg(test)]
mod tests {
    use super::*;

    #[test]
    fn buffers_are_just_large_enough_longer_one_byte_short_or_empty() {
        let mut random = Random::new(1);
        let mut times = [0; 100];
        for _ in 0..10_000 {
            let buffer = Guarded::resized(&mut random, vec![7; 64]);
            times[buffer.bytes().len()] += 1;
        }
        assert!(times[64] > 5_000, "{times:?}");
        for length in [0, 63, 65, 94] {
            assert!(times[length] > 50, "{times:?}");
        }
        assert!(times[1..63].iter().sum::<usize>() > 200, "{times:?}");
    }

    #[test]
    fn changes_are_found_in_the_buffer_and_its_guards() {
        let before = Guarded::of(&mut Random::new(0), &[1, 2, 3, 4]);
        let mut after = before.clone();
        assert_eq!(after.changed(&before), None);
        after.bytes_mut()[1] = 7;
        assert_eq!(after.changed(&before), Some((1..2, Hex(vec![7]))));
        after.bytes_mut()[3] = 8;
        assert_eq!(after.changed(&before), Some((1..4, Hex(vec![7, 3, 8]))));
        after.0 .0[GUARD - 1] ^= 1;
        assert_eq!(after.changed(&before).unwrap().0, -1..4);
        after.0 .0[GUARD + 4] ^= 1;
        assert_eq!(after.changed(&before).unwrap().0, -1..5);
    }
}
