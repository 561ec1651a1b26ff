//! The ways in which held blocks make a record unsound.

use super::{held, put, Numbers, HANDED_UP, HELD_BLOCKS, HELD_LENGTHS, PLACES};
use reference::block::LONGEST_BLOCK;
use reference::record::{Record, RECORD};
use reference::State;

/// One of these ways: takes it from a record where it is there.
#[derive(Clone, Copy)]
pub struct Fault(fn(&mut [u8; RECORD]));

/// A block is held with a length of 65.
pub const LENGTH_OF_65: Fault = Fault(|record| {
    for length in &mut record[HELD_LENGTHS..HELD_BLOCKS] {
        *length -= u8::from(*length == 65);
    }
});

/// A block is held as number 4294967295.
pub const NUMBER_AFTER_THE_LAST: Fault = Fault(|record| {
    let e = Numbers::of(record).handed_up;
    let last = held(record).iter().rposition(|&length| length > 0);
    if last.is_some_and(|above| e.checked_add(above as u32) == Some(u32::MAX)) {
        put(record, HANDED_UP, &(e - 1).to_be_bytes());
    }
});

/// A block is held outside open.
pub const OUTSIDE_OPEN: Fault = Fault(|record| {
    if record[0] != State::Open as u8 && held(record) != &[0; PLACES] {
        record[HELD_LENGTHS..].fill(0);
    }
});

/// Bytes are used that no held block has.
pub const UNUSED_BYTES: Fault = Fault(|record| {
    let lengths = *held(record);
    let (places, _) = record[HELD_BLOCKS..].as_chunks_mut::<LONGEST_BLOCK>();
    for (place, length) in places.iter_mut().zip(lengths) {
        place[usize::from(length).min(LONGEST_BLOCK)..].fill(0);
    }
});

/// All of them.
pub const ALL: [Fault; 4] = [
    LENGTH_OF_65,
    NUMBER_AFTER_THE_LAST,
    OUTSIDE_OPEN,
    UNUSED_BYTES,
];

impl Fault {
    /// The record without the fault, if it has it and is sound without it.
    pub fn mended(self, record: &[u8; RECORD]) -> Option<[u8; RECORD]> {
        let mut mended = *record;
        (self.0)(&mut mended);
        let is_sound = Record::read(&mut mended).is_ok();
        (is_sound && mended != *record).then_some(mended)
    }
}
