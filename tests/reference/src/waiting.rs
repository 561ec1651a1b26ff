//! The waiting blocks: accepted for sending, not yet acknowledged.

use crate::blocks::{Blocks, BLOCKS, MOST};
use crate::{Block, Refusal};

/// The bytes of the waiting blocks in a record: w, the lengths, the places.
pub const WAITING: usize = 1 + BLOCKS;

/// The waiting blocks where they stand in a record, the oldest first.
pub struct Waiting<'a> {
    count: &'a mut u8,
    blocks: Blocks<'a>,
}

impl<'a> Waiting<'a> {
    /// The waiting blocks in their part of a record, sound or not.
    pub fn of(bytes: &'a mut [u8; WAITING]) -> Self {
        let [count, blocks @ ..] = bytes;
        Self {
            count,
            blocks: Blocks::of(blocks),
        }
    }

    /// w, the number of waiting blocks.
    pub fn count(&self) -> usize {
        usize::from(*self.count)
    }

    /// Is w at most 8, each waiting length 1 to 64, and what is unused 0?
    pub fn is_sound(&self) -> bool {
        let is_count = self.blocks.used() == self.count() && !self.blocks.has_gap();
        is_count && self.blocks.is_sound()
    }

    /// The block in this place, which is in use.
    pub fn block(&self, place: usize) -> Block<'_> {
        self.blocks
            .block(place)
            .expect("a waiting length is 1 to 64")
    }

    /// Question 10; then the block joins as the youngest.
    pub fn push(&mut self, block: Block) -> Result<(), Refusal> {
        let count = self.count();
        if count >= MOST {
            return Err(Refusal::WaitingFull);
        }
        self.blocks.put(count, block);
        *self.count += 1;
        Ok(())
    }

    /// So many of the oldest leave; the others move to the front.
    pub fn remove_oldest(&mut self, leaving: usize) {
        self.blocks.leave(leaving);
        *self.count -= leaving as u8;
    }

    /// All leave.
    pub fn clear(&mut self) {
        self.remove_oldest(self.count());
    }
}

#[cfg(test)]
mod tests {
    use super::*;

    /// Eight blocks, the one in place p of 8(p + 1) bytes p + 1.
    fn full() -> [u8; WAITING] {
        let mut bytes = [0; WAITING];
        let mut waiting = Waiting::of(&mut bytes);
        for number in 1..=8 {
            assert_eq!(waiting.push(Block::new(&block(number)).unwrap()), Ok(()));
        }
        bytes
    }

    fn block(number: u8) -> Vec<u8> {
        vec![number; 8 * usize::from(number)]
    }

    fn is_sound(mut bytes: [u8; WAITING]) -> bool {
        Waiting::of(&mut bytes).is_sound()
    }

    #[test]
    fn a_ninth_block_finds_no_place() {
        let mut bytes = full();
        let before = bytes;
        let ninth = Waiting::of(&mut bytes).push(Block::new(b"a").unwrap());
        assert_eq!(ninth, Err(Refusal::WaitingFull));
        assert_eq!(bytes, before);
    }

    #[test]
    fn the_bytes_stand_in_the_order_of_the_document() {
        let bytes = full();
        assert_eq!(bytes[..9], [8, 8, 16, 24, 32, 40, 48, 56, 64]);
        assert_eq!(bytes[9..18], [1, 1, 1, 1, 1, 1, 1, 1, 0]);
        assert_eq!(bytes[9 + 64..][..17], [[2; 16].as_slice(), &[0]].concat());
        assert_eq!(bytes[9 + 7 * 64..], [8; 64]);
    }

    #[test]
    fn the_oldest_leave_and_what_they_leave_is_0() {
        for leaving in 0..=8 {
            let mut bytes = full();
            let mut waiting = Waiting::of(&mut bytes);
            waiting.remove_oldest(leaving);
            assert_eq!(waiting.count(), 8 - leaving);
            assert!(waiting.is_sound());
            for place in 0..8 - leaving {
                let number = (place + leaving + 1) as u8;
                assert_eq!(waiting.block(place).bytes(), block(number));
            }
        }
    }

    #[test]
    fn clear_leaves_zeros() {
        let mut bytes = full();
        Waiting::of(&mut bytes).clear();
        assert_eq!(bytes, [0; WAITING]);
    }

    #[test]
    fn w_is_at_most_8() {
        assert!(is_sound([0; WAITING]));
        assert!(is_sound(full()));
        for count in 9..=u8::MAX {
            let mut bytes = full();
            bytes[0] = count;
            assert!(!is_sound(bytes));
        }
    }

    #[test]
    fn waiting_lengths_are_1_to_64() {
        for length in 0..=u8::MAX {
            let mut bytes = [0; WAITING];
            bytes[..2].copy_from_slice(&[1, length]);
            assert_eq!(is_sound(bytes), (1..=64).contains(&length));
            bytes[..4].copy_from_slice(&[3, 1, length, 1]);
            assert_eq!(is_sound(bytes), (1..=64).contains(&length));
        }
    }

    #[test]
    fn what_is_unused_is_0() {
        let mut sound = [0; WAITING];
        let mut waiting = Waiting::of(&mut sound);
        waiting.push(Block::new(b"abc").unwrap()).unwrap();
        waiting.push(Block::new(b"defgh").unwrap()).unwrap();
        for place in 3..WAITING {
            let mut bytes = sound;
            bytes[place] = 1;
            let in_older = (9..12).contains(&place);
            let in_younger = (9 + 64..9 + 69).contains(&place);
            assert_eq!(is_sound(bytes), in_older || in_younger);
        }
    }
}
