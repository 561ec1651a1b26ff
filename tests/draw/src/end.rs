//! An end's record by its fields.

use reference::page::{self, PAGE};
use reference::record::RECORD;
use reference::State;
use std::array;

/// Where L, D, t and e stand in a record.
const NUMBERS: [usize; 4] = [1, 5, 9, 13];
/// Where w stands.
const WAITING: usize = 17;
/// Where the lengths of the waiting blocks stand.
const LENGTHS: usize = 18;
/// Where the waiting blocks stand.
const BLOCKS: usize = 26;
/// Where the lengths of the held blocks stand.
const HELD_LENGTHS: usize = BLOCKS + PLACES * PLACE;
/// Where the held blocks stand.
const HELD_BLOCKS: usize = HELD_LENGTHS + PLACES;
/// The bytes that each block has for itself.
const PLACE: usize = 64;
/// So many waiting blocks have a place, and so many held ones.
pub const PLACES: usize = 8;

/// An end's record.
#[derive(Clone, Debug, PartialEq, Eq)]
pub struct End {
    pub state: State,
    /// L, the local number.
    pub local: u32,
    /// D, the partner's number; 0 if it is not known.
    pub remote: u32,
    /// t, the blocks accepted for sending.
    pub accepted: u32,
    /// e, the blocks handed up.
    pub handed_up: u32,
    /// The blocks not yet acknowledged, the oldest first. Their number is w.
    pub waiting: Vec<Vec<u8>>,
    /// The blocks that came early: those numbered e to e + 7, empty where none is held.
    pub held: Held,
}

/// Held blocks, in their places.
pub type Held = [Vec<u8>; PLACES];

impl End {
    /// The fields of a record that the reference left.
    pub fn read(record: &[u8; RECORD]) -> Result<Self, String> {
        let [local, remote, accepted, handed_up] = NUMBERS.map(|place| number(record, place));
        let state = State::of(record[0]).ok_or_else(|| format!("state {} is none", record[0]))?;
        let waiting = 0..usize::from(record[WAITING]);
        let waiting = waiting.map(|place| block(record, [LENGTHS, BLOCKS], place));
        let held = |place| block(record, [HELD_LENGTHS, HELD_BLOCKS], place);
        Ok(Self {
            state,
            local,
            remote,
            accepted,
            handed_up,
            waiting: waiting.collect(),
            held: array::from_fn(held),
        })
    }

    /// The record in bytes.
    pub fn write(&self) -> [u8; RECORD] {
        let mut record = [0; RECORD];
        record[0] = self.state as u8;
        let numbers = [self.local, self.remote, self.accepted, self.handed_up];
        for (place, number) in NUMBERS.into_iter().zip(numbers) {
            put(&mut record, place, &number.to_be_bytes());
        }
        record[WAITING] = self.waiting.len() as u8;
        put_blocks(&mut record, [LENGTHS, BLOCKS], &self.waiting);
        put_blocks(&mut record, [HELD_LENGTHS, HELD_BLOCKS], &self.held);
        record
    }

    /// The right page for the end.
    pub fn page(&self) -> [u8; PAGE] {
        *page::of(page::reserved(self.local))
    }

    /// t − w, the number of the oldest waiting block, or of the next one if none waits.
    pub fn oldest(&self) -> u32 {
        self.accepted - self.waiting.len() as u32
    }

    /// The waiting block of this number.
    pub fn block(&self, number: u32) -> Option<&[u8]> {
        let place = number.checked_sub(self.oldest())?;
        self.waiting.get(place as usize).map(Vec::as_slice)
    }

    /// The place in which a block of this number is held, if it has one.
    pub fn place(&self, number: u32) -> Option<usize> {
        let place = number.checked_sub(self.handed_up)? as usize;
        (place < PLACES).then_some(place)
    }

    /// The held block of this number.
    pub fn held_block(&self, number: u32) -> Option<&[u8]> {
        let block = &self.held[self.place(number)?];
        (!block.is_empty()).then_some(block)
    }
}

/// The number in the 4 bytes from this place on.
fn number(record: &[u8; RECORD], place: usize) -> u32 {
    let bytes = record[place..].first_chunk().expect("4 bytes of a record");
    u32::from_be_bytes(*bytes)
}

/// The block in this place, where the lengths and the blocks stand so.
fn block(record: &[u8; RECORD], [lengths, blocks]: [usize; 2], place: usize) -> Vec<u8> {
    let length = usize::from(record[lengths + place]);
    record[blocks + place * PLACE..][..length].to_vec()
}

/// Writes blocks to places whose lengths and blocks stand so.
fn put_blocks(record: &mut [u8; RECORD], [lengths, places]: [usize; 2], blocks: &[Vec<u8>]) {
    for (place, block) in blocks.iter().enumerate() {
        record[lengths + place] = block.len() as u8;
        put(record, places + place * PLACE, block);
    }
}

/// Writes the bytes from this place on.
fn put(record: &mut [u8; RECORD], place: usize, bytes: &[u8]) {
    record[place..][..bytes.len()].copy_from_slice(bytes);
}

#[cfg(test)]
mod tests {
    use super::*;
    use reference::record::Record;
    use reference::Block;

    fn open() -> End {
        End {
            state: State::Open,
            local: 0x0102_0304,
            remote: 3,
            accepted: 20,
            handed_up: 40,
            waiting: vec![vec![1; 64], vec![2], vec![3, 4]],
            held: array::from_fn(|place| vec![5; place % 3]),
        }
    }

    #[test]
    fn a_record_written_reads_as_itself() {
        assert_eq!(End::read(&open().write()), Ok(open()));
    }

    #[test]
    fn the_reference_reads_the_same_fields() {
        let mut bytes = open().write();
        let mut record = Record::read(&mut bytes).map_err(drop).unwrap();
        assert_eq!(record.state, State::Open);
        assert_eq!((record.local, record.remote), (0x0102_0304, 3));
        assert_eq!((record.accepted, record.handed_up), (20, 40));
        assert_eq!((record.waiting.count(), record.oldest()), (3, 17));
        assert!(record.held.next().is_none());
        record.hand_up();
        assert_eq!(record.held.next().map(Block::bytes), Some(&[5][..]));
    }

    #[test]
    fn waiting_blocks_have_the_numbers_before_t() {
        assert_eq!(open().oldest(), 17);
        assert_eq!(open().block(16), None);
        assert_eq!(open().block(18), Some(&[2][..]));
        assert_eq!(open().block(20), None);
    }

    #[test]
    fn held_blocks_have_the_numbers_from_e_on() {
        assert_eq!(open().held_block(39), None);
        assert_eq!(open().held_block(40), None);
        assert_eq!(open().held_block(41), Some(&[5][..]));
        assert_eq!(open().held_block(47), Some(&[5][..]));
        assert_eq!(open().held_block(48), None);
    }
}
