//! Blocks: what DATA and send carry.

use crate::buffer::put;
use crate::Refusal;

/// The most bytes a block has.
pub const LONGEST_BLOCK: usize = 64;

/// A block of 1 to 64 bytes, part of the bytes it was read from.
#[derive(Clone, Copy, Debug, PartialEq, Eq)]
pub struct Block<'a>(&'a [u8]);

impl<'a> Block<'a> {
    /// The bytes as a block, if there are 1 to 64.
    pub fn new(bytes: &'a [u8]) -> Result<Self, Refusal> {
        ask_count(bytes.len())?;
        Ok(Self(bytes))
    }

    /// Reads a count byte, the last of the fixed part, and the block after it: questions 4 to 6.
    pub fn read(bytes: &'a [u8]) -> Result<Self, Refusal> {
        let (&count, bytes) = bytes.split_first().ok_or(Refusal::FixedPart)?;
        let count = usize::from(count);
        ask_count(count)?;
        if bytes.len() != count {
            return Err(Refusal::BlockLength);
        }
        Ok(Self(bytes))
    }

    /// The count byte that stands before the block.
    pub fn count(self) -> u8 {
        self.0.len() as u8
    }

    /// Writes the count byte and the block at the start of the buffer; answers their length.
    pub fn put(self, out: &mut [u8]) -> usize {
        let length = put(out, &[self.count()]);
        length + put(&mut out[length..], self.0)
    }

    /// Copies the block to the start of a buffer that has room for it, and writes no other byte;
    /// gives the copy.
    pub fn copied(self, out: &mut [u8]) -> Block<'_> {
        let length = put(out, self.0);
        Block(&out[..length])
    }

    /// The block's bytes.
    pub fn bytes(self) -> &'a [u8] {
        self.0
    }
}

/// Question 5: is the count 1 to 64?
fn ask_count(count: usize) -> Result<(), Refusal> {
    if !(1..=LONGEST_BLOCK).contains(&count) {
        return Err(Refusal::Count);
    }
    Ok(())
}

#[cfg(test)]
mod tests {
    use super::*;

    #[test]
    fn a_block_has_1_to_64_bytes() {
        for length in [1, 64] {
            let bytes = vec![7; length];
            assert_eq!(Block::new(&bytes).map(Block::bytes), Ok(&bytes[..]));
        }
        for length in [0, 65, 256, 257] {
            assert_eq!(Block::new(&vec![7; length]), Err(Refusal::Count));
        }
    }

    #[test]
    fn the_count_is_asked_before_the_bytes_after_it() {
        assert_eq!(Block::read(&[]), Err(Refusal::FixedPart));
        assert_eq!(Block::read(&[0]), Err(Refusal::Count));
        assert_eq!(Block::read(&[65; 66]), Err(Refusal::Count));
        assert_eq!(Block::read(&[255; 256]), Err(Refusal::Count));
        assert_eq!(Block::read(&[1]), Err(Refusal::BlockLength));
        assert_eq!(Block::read(&[1, 2, 3]), Err(Refusal::BlockLength));
        assert_eq!(Block::read(&[64; 64]), Err(Refusal::BlockLength));
        assert_eq!(Block::read(&[64; 66]), Err(Refusal::BlockLength));
        assert_eq!(Block::read(&[1; 258]), Err(Refusal::BlockLength));
    }

    #[test]
    fn a_copy_stands_at_the_start_and_leaves_the_rest() {
        for length in 1..=LONGEST_BLOCK {
            let bytes = vec![7; length];
            let mut out = [9; LONGEST_BLOCK];
            assert_eq!(Block(&bytes).copied(&mut out), Block(&bytes));
            assert_eq!(out[..length], bytes);
            assert!(out[length..].iter().all(|&byte| byte == 9));
        }
    }

    #[test]
    fn a_block_written_reads_as_itself() {
        for length in 1..=LONGEST_BLOCK {
            let bytes = vec![7; length];
            let block = Block::new(&bytes).unwrap();
            let mut out = [9; 1 + LONGEST_BLOCK];
            let written = block.put(&mut out);
            assert_eq!(Block::read(&out[..written]), Ok(block));
            assert!(out[written..].iter().all(|&byte| byte == 9));
        }
    }
}
