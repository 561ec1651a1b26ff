//! Frames and requests whose numbers are at or near those of a record.

use crate::random::Random;
use crate::records::{waiting, Numbers};
use crate::sample::{block, message, number, FRAME_KINDS, REQUEST_KINDS};
use reference::frame::{ACK, DATA};
use reference::record::RECORD;
use reference::request::{COLLECT, SEND};
use reference::State;

/// Is the record that of an open end?
fn is_open(record: &[u8; RECORD]) -> bool {
    record[0] == State::Open as u8
}

/// A request; of an open end mostly send or collect.
pub fn request(random: &mut Random, record: &[u8; RECORD]) -> Vec<u8> {
    let kind = match random.within(0..=3) {
        1.. if is_open(record) => random.pick(&[SEND, COLLECT]),
        _ => random.pick(&REQUEST_KINDS),
    };
    message(kind, &[], &block(random))
}

/// A frame for this end; for an open one mostly DATA or ACK.
pub fn frame(random: &mut Random, record: &[u8; RECORD]) -> Vec<u8> {
    let kind = match random.within(0..=3) {
        1.. if is_open(record) => random.pick(&[DATA, ACK]),
        _ => random.pick(&FRAME_KINDS),
    };
    frame_of(random, record, kind)
}

/// A frame of this kind for this end.
pub fn frame_of(random: &mut Random, record: &[u8; RECORD], kind: u8) -> Vec<u8> {
    let numbers = Numbers::of(record);
    let third = match kind {
        DATA => sequence(random, numbers.handed_up),
        _ => count(random, numbers.accepted, waiting(record)),
    };
    let numbers = [
        sender(random, numbers.remote),
        near(random, numbers.local),
        third,
    ];
    message(kind, &numbers, &block(random))
}

/// A sender's number; a small one if no partner is known.
fn sender(random: &mut Random, remote: u32) -> u32 {
    match remote {
        0 => random.within(0..=4) as u32,
        _ => near(random, remote),
    }
}

/// A number for DATA: the awaited one or one near it, or one that is held or next to these.
fn sequence(random: &mut Random, handed_up: u32) -> u32 {
    match random.within(0..=1) {
        0 => near(random, handed_up),
        _ => handed_up.wrapping_add(random.within(1..=9) as u32),
    }
}

/// A count for ACK: of all blocks up to a waiting one, or one above or below these.
fn count(random: &mut Random, accepted: u32, waiting: u8) -> u32 {
    let left = random.within(0..=usize::from(waiting) + 2) as u32;
    accepted.wrapping_add(1).wrapping_sub(left)
}

/// The number itself, one next to it, or another.
fn near(random: &mut Random, value: u32) -> u32 {
    match random.within(0..=9) {
        0 => value.wrapping_sub(1),
        1 => value.wrapping_add(1),
        2 => number(random),
        _ => value,
    }
}
