//! The held blocks: they arrived before the one that comes next.

use crate::blocks::{Blocks, BLOCKS};
use crate::Block;

/// The bytes of the held blocks in a record: the lengths, the places.
pub const HELD: usize = BLOCKS;

/// The held blocks where they stand in a record, in places for those numbered e to e + 7.
pub struct Held<'a>(Blocks<'a>);

impl<'a> Held<'a> {
    /// The held blocks in their part of a record, sound or not.
    pub fn of(bytes: &'a mut [u8; HELD]) -> Self {
        Self(Blocks::of(bytes))
    }

    /// Is none held?
    pub fn is_empty(&self) -> bool {
        self.0.used() == 0
    }

    /// Is each length at most 64, what is unused 0, and no held number above 4294967294? The first
    /// place is that of number e.
    pub fn is_sound(&self, e: u32) -> bool {
        // The last held number is one below this sum.
        let numbers = e.checked_add(self.0.used() as u32);
        numbers.is_some() && self.0.is_sound()
    }

    /// Block e, if it is held.
    pub fn next(&self) -> Option<Block<'_>> {
        self.0.block(0)
    }

    /// Holds the block numbered so many above e, if it has a place and no copy of it is held.
    pub fn hold(&mut self, above: u32, block: Block) {
        let place = above as usize;
        if self.0.is_free(place) {
            self.0.put(place, block);
        }
    }

    /// e rises by one: what is held of the old e goes, the others move to the front.
    pub fn advance(&mut self) {
        if !self.is_empty() {
            self.0.leave(1);
        }
    }

    /// All go.
    pub fn clear(&mut self) {
        self.0.clear();
    }
}

#[cfg(test)]
mod tests {
    use super::*;
    use crate::frame::LAST_SEQUENCE;

    /// These blocks, so far above e.
    fn held(blocks: &[(u32, &[u8])]) -> [u8; HELD] {
        let mut bytes = [0; HELD];
        let mut held = Held::of(&mut bytes);
        for &(above, block) in blocks {
            held.hold(above, Block::new(block).unwrap());
        }
        bytes
    }

    fn is_sound(mut bytes: [u8; HELD], e: u32) -> bool {
        Held::of(&mut bytes).is_sound(e)
    }

    #[test]
    fn there_are_places_up_to_seven_above() {
        for above in 0..8 {
            let mut bytes = held(&[(above, b"a")]);
            assert_eq!(bytes[above as usize], 1);
            assert!(!Held::of(&mut bytes).is_empty());
        }
        for above in [8, 9, 255, 256, 1 << 31, u32::MAX] {
            assert_eq!(held(&[(above, b"a")]), [0; HELD]);
        }
    }

    #[test]
    fn the_first_copy_stays() {
        let first = held(&[(3, b"first")]);
        for second in [&b"second"[..], b"2", b"first"] {
            assert_eq!(held(&[(3, b"first"), (3, second)]), first);
        }
    }

    #[test]
    fn the_next_is_the_one_of_number_e() {
        let next = |mut bytes: [u8; HELD]| Held::of(&mut bytes).next().map(|b| b.bytes().to_vec());
        assert_eq!(next([0; HELD]), None);
        assert_eq!(next(held(&[(1, b"b")])), None);
        assert_eq!(next(held(&[(1, b"b"), (0, b"a")])), Some(b"a".to_vec()));
    }

    #[test]
    fn places_move_as_e_rises() {
        let mut bytes = held(&[(0, b"a"), (2, b"ccc"), (7, b"hh")]);
        for after in [
            &[(1, &b"ccc"[..]), (6, b"hh")][..],
            &[(0, b"ccc"), (5, b"hh")],
            &[(4, b"hh")],
        ] {
            Held::of(&mut bytes).advance();
            assert_eq!(bytes, held(after));
        }
        Held::of(&mut bytes).clear();
        Held::of(&mut bytes).advance();
        assert_eq!(bytes, [0; HELD]);
    }

    #[test]
    fn held_numbers_have_a_limit() {
        for above in 0..8 {
            let bytes = held(&[(above, b"a")]);
            assert!(is_sound(bytes, 0));
            assert!(is_sound(bytes, LAST_SEQUENCE - above));
            for over in 1..=above + 1 {
                assert!(!is_sound(bytes, LAST_SEQUENCE - above + over));
            }
        }
        assert!(is_sound([0; HELD], u32::MAX));
    }

    #[test]
    fn lengths_and_unused_bytes_are_asked() {
        let mut bytes = held(&[(2, &[7; 64])]);
        assert!(is_sound(bytes, 5));
        bytes[2] = 65;
        assert!(!is_sound(bytes, 5));
        bytes[2] = 63;
        assert!(!is_sound(bytes, 5));
    }
}
