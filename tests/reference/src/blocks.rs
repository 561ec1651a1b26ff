//! Eight places for blocks: so a record keeps the waiting ones, and so the held ones.

use crate::block::LONGEST_BLOCK;
use crate::buffer::put;
use crate::Block;

/// How many places there are.
pub const MOST: usize = 8;
/// Their bytes in a record: the lengths, the places.
pub const BLOCKS: usize = MOST + MOST * LONGEST_BLOCK;

/// The blocks where they stand in a record. The length of a free place is 0.
pub struct Blocks<'a> {
    lengths: &'a mut [u8; MOST],
    places: &'a mut [[u8; LONGEST_BLOCK]],
}

impl<'a> Blocks<'a> {
    /// The blocks in their part of a record, sound or not.
    pub fn of(bytes: &'a mut [u8; BLOCKS]) -> Self {
        let (lengths, places) = bytes.split_first_chunk_mut().expect("lengths, then places");
        let (places, _) = places.as_chunks_mut();
        Self { lengths, places }
    }

    /// How many places there are up to the last one in use.
    pub fn used(&self) -> usize {
        let free = u64::from_be_bytes(*self.lengths).trailing_zeros() / u8::BITS;
        MOST - free as usize
    }

    /// Is a place free before the last one in use?
    pub fn has_gap(&self) -> bool {
        self.lengths[..self.used()].contains(&0)
    }

    /// Is there such a place, and is it free?
    pub fn is_free(&self, place: usize) -> bool {
        self.lengths.get(place) == Some(&0)
    }

    /// Is each length at most 64, and what is unused 0? All that follows the last place in use is
    /// looked at in one run.
    pub fn is_sound(&self) -> bool {
        let (used, free) = self.places.split_at(self.used());
        self.lengths.iter().zip(used).all(fits) && is_zero(free.as_flattened())
    }

    /// The block in this place, if it is in use.
    pub fn block(&self, place: usize) -> Option<Block<'_>> {
        let length = usize::from(self.lengths[place]);
        Block::new(&self.places[place][..length]).ok()
    }

    /// Puts a block in this place, which is free.
    pub fn put(&mut self, place: usize, block: Block) {
        self.lengths[place] = block.count();
        put(&mut self.places[place], block.bytes());
    }

    /// The first so many places, not more than are in use, are left; the others move to the front.
    pub fn leave(&mut self, leaving: usize) {
        let used = self.used();
        let staying = used - leaving;
        self.lengths.copy_within(leaving..used, 0);
        self.places.copy_within(leaving..used, 0);
        self.lengths[staying..used].fill(0);
        self.places[staying..used].fill([0; LONGEST_BLOCK]);
    }

    /// All are left.
    pub fn clear(&mut self) {
        self.leave(self.used());
    }
}

/// Is the length at most 64, and 0 all that follows so many bytes of the place?
fn fits((&length, place): (&u8, &[u8; LONGEST_BLOCK])) -> bool {
    place.get(usize::from(length)..).is_some_and(is_zero)
}

/// Are all bytes 0?
fn is_zero(bytes: &[u8]) -> bool {
    bytes.iter().fold(0, |all, byte| all | byte) == 0
}

#[cfg(test)]
mod tests {
    use super::*;

    /// Blocks in these places, the one in place p of 8(p + 1) bytes p + 1.
    fn blocks(places: &[usize]) -> [u8; BLOCKS] {
        let mut bytes = [0; BLOCKS];
        let mut blocks = Blocks::of(&mut bytes);
        for &place in places {
            assert!(blocks.is_free(place));
            blocks.put(place, Block::new(&block(place)).unwrap());
            assert!(!blocks.is_free(place));
        }
        bytes
    }

    fn block(place: usize) -> Vec<u8> {
        vec![place as u8 + 1; 8 * (place + 1)]
    }

    fn is_sound(mut bytes: [u8; BLOCKS]) -> bool {
        Blocks::of(&mut bytes).is_sound()
    }

    #[test]
    fn the_bytes_stand_in_the_order_of_the_document() {
        assert_eq!(BLOCKS, 8 + 512);
        let bytes = blocks(&[0, 1, 2, 3, 4, 5, 6, 7]);
        assert_eq!(bytes[..8], [8, 16, 24, 32, 40, 48, 56, 64]);
        assert_eq!(bytes[8..17], [1, 1, 1, 1, 1, 1, 1, 1, 0]);
        assert_eq!(bytes[8 + 64..][..17], [[2; 16].as_slice(), &[0]].concat());
        assert_eq!(bytes[8 + 7 * 64..], [8; 64]);
    }

    #[test]
    fn places_are_used_up_to_the_last_block() {
        for (places, used, has_gap) in [
            (&[][..], 0, false),
            (&[0], 1, false),
            (&[1], 2, true),
            (&[0, 1, 2], 3, false),
            (&[0, 2, 6], 7, true),
            (&[7], 8, true),
            (&[0, 1, 2, 3, 4, 5, 6, 7], 8, false),
        ] {
            let mut bytes = blocks(places);
            let blocks = Blocks::of(&mut bytes);
            assert_eq!((blocks.used(), blocks.has_gap()), (used, has_gap));
        }
    }

    #[test]
    fn a_place_that_is_none_is_not_free() {
        let mut bytes = [0; BLOCKS];
        let blocks = Blocks::of(&mut bytes);
        for place in [8, 9, 256, usize::MAX] {
            assert!(!blocks.is_free(place));
        }
    }

    #[test]
    fn the_first_leave_and_the_last_of_them_leave_0() {
        let all = [0, 2, 3, 6];
        for leaving in 0..=7 {
            let mut bytes = blocks(&all);
            let mut blocks = Blocks::of(&mut bytes);
            blocks.leave(leaving);
            assert!(blocks.is_sound());
            for place in 0..8 {
                let before = place + leaving;
                let right = all.contains(&before).then(|| block(before));
                let found = blocks.block(place).map(|block| block.bytes().to_vec());
                assert_eq!(found, right);
            }
        }
    }

    #[test]
    fn clear_leaves_zeros() {
        for places in [&[][..], &[3], &[0, 1, 2, 3, 4, 5, 6, 7]] {
            let mut bytes = blocks(places);
            Blocks::of(&mut bytes).clear();
            assert_eq!(bytes, [0; BLOCKS]);
        }
    }

    #[test]
    fn lengths_are_at_most_64() {
        for place in 0..8 {
            for length in 0..=u8::MAX {
                let mut bytes = [0; BLOCKS];
                bytes[place] = length;
                assert_eq!(is_sound(bytes), length <= 64);
            }
        }
    }

    #[test]
    fn what_is_unused_is_0() {
        let sound = blocks(&[0, 2, 5]);
        assert!(is_sound(sound));
        for place in 8..BLOCKS {
            let mut bytes = sound;
            bytes[place] ^= 0x80;
            let (block, byte) = ((place - 8) / 64, (place - 8) % 64);
            let is_used = matches!(block, 0 | 2 | 5) && byte < 8 * (block + 1);
            assert_eq!(is_sound(bytes), is_used, "byte {place}");
        }
    }
}
