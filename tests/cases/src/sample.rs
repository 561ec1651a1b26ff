//! Inputs: digits, numbers, frames and requests.

use crate::random::Random;
use reference::block::LONGEST_BLOCK;
use reference::frame::{ACK, DATA};
use reference::request::{CLOSE, COLLECT, CONNECT, END_LISTENING, LISTEN, SEND, TIMER};

/// The kind bytes of frames.
pub const FRAME_KINDS: [u8; 9] = [1, 2, 3, 4, 5, 6, 7, 8, 9];
/// The kind bytes of requests.
pub const REQUEST_KINDS: [u8; 7] = [CONNECT, LISTEN, END_LISTENING, CLOSE, SEND, TIMER, COLLECT];
/// Numbers at the edges.
pub const EDGES: [u32; 5] = [0, 1, 2, 4294967294, 4294967295];

/// That many digits.
pub fn hex_digits(random: &mut Random, count: usize) -> Vec<u8> {
    (0..count)
        .map(|_| random.pick(b"0123456789abcdef"))
        .collect()
}

/// A number at an edge, or any.
pub fn number(random: &mut Random) -> u32 {
    match random.within(0..=1) {
        0 => random.pick(&EDGES),
        _ => random.bits() as u32,
    }
}

/// How many numbers follow this kind byte.
fn numbers_of(kind: u8) -> usize {
    match kind {
        0x01..=0x07 => 2,
        DATA | ACK => 3,
        _ => 0,
    }
}

/// Where the count byte stands in this kind, if it has one.
pub fn count_place(kind: u8) -> Option<usize> {
    match kind {
        DATA => Some(13),
        SEND => Some(1),
        _ => None,
    }
}

/// A frame or request of this kind with these numbers and, where it carries one, this block.
pub fn message(kind: u8, numbers: &[u32], block: &[u8]) -> Vec<u8> {
    let mut bytes = vec![kind];
    let numbers = &numbers[..numbers_of(kind)];
    bytes.extend(numbers.iter().flat_map(|number| number.to_be_bytes()));
    if count_place(kind).is_some() {
        bytes.push(block.len() as u8);
        bytes.extend(block);
    }
    bytes
}

/// A block of 1 to 64 bytes.
pub fn block(random: &mut Random) -> Vec<u8> {
    let length = match random.within(0..=2) {
        0 => random.pick(&[1, LONGEST_BLOCK]),
        _ => random.within(1..=LONGEST_BLOCK),
    };
    random.bytes(length)
}
