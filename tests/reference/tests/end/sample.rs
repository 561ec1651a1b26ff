//! Records and messages to call with, and what a call did.

use reference::block::LONGEST_BLOCK;
use reference::call;
use reference::frame::{Body, Signal, LONGEST_FRAME};
use reference::page::PAGE;
use reference::record::RECORD;
use reference::{Answer, Block, Frame, State};

pub type Record = [u8; RECORD];
pub type Page = [u8; PAGE];
/// The record of a fresh end.
pub const FRESH: Record = [0; RECORD];
pub const LAST: u32 = u32::MAX;
pub const CONNECT: &[u8] = &[0x40];
pub const LISTEN: &[u8] = &[0x41];
pub const END_LISTENING: &[u8] = &[0x42];
pub const CLOSE: &[u8] = &[0x43];
pub const TIMER: &[u8] = &[0x45];
pub const COLLECT: &[u8] = &[0x46];
/// The last number that a page reserves.
pub const LAST_LOCAL: u32 = 65_536;
/// Fills what a call may not write.
const UNTOUCHED: u8 = 0xee;

/// A record without counts and blocks.
pub fn end(state: State, local: u32, remote: u32) -> Record {
    let numbers = [local, remote, 0, 0].map(u32::to_be_bytes).concat();
    let mut record = [0; RECORD];
    record[0] = state as u8;
    record[1..17].copy_from_slice(&numbers);
    record
}

/// The record of an open end with L = 5 and D = 3, these counts t and e and waiting blocks.
pub fn open(accepted: u32, handed_up: u32, waiting: &[&[u8]]) -> Record {
    let mut record = end(State::Open, 5, 3);
    record[9..13].copy_from_slice(&accepted.to_be_bytes());
    record[13..17].copy_from_slice(&handed_up.to_be_bytes());
    record[17] = waiting.len() as u8;
    for (place, block) in waiting.iter().enumerate() {
        record[18 + place] = block.len() as u8;
        record[26 + 64 * place..][..block.len()].copy_from_slice(block);
    }
    record
}

/// Blocks that are held, each so far above e.
pub type Held<'a> = &'a [(usize, &'a [u8])];

/// The record with these blocks held.
pub fn holding(mut record: Record, held: Held) -> Record {
    for &(above, block) in held {
        record[538 + above] = block.len() as u8;
        record[546 + 64 * above..][..block.len()].copy_from_slice(block);
    }
    record
}

/// The page of so many 00 and then FF.
pub fn page(reserved: usize) -> Page {
    let mut page = [0xff; PAGE];
    page[..reserved].fill(0);
    page
}

/// The right page for an end with this record, whose L is not above the last number.
pub fn page_of(record: &[u8]) -> Page {
    let local = u32::from_be_bytes(record[1..5].try_into().unwrap());
    page((local as usize).div_ceil(16))
}

pub fn signal(signal: Signal, sender: u32, quoted: u32) -> Vec<u8> {
    Frame::new(sender, quoted, Body::Signal(signal)).write()
}

pub fn data(sender: u32, quoted: u32, sequence: u32, block: &[u8]) -> Vec<u8> {
    let block = Block::new(block).unwrap();
    Frame::new(sender, quoted, Body::Data { sequence, block }).write()
}

pub fn ack(sender: u32, quoted: u32, count: u32) -> Vec<u8> {
    Frame::new(sender, quoted, Body::Ack { count }).write()
}

/// The request to send this block.
pub fn send(block: &[u8]) -> Vec<u8> {
    [&[0x44, block.len() as u8], block].concat()
}

/// What a call did.
#[derive(Debug, PartialEq)]
pub struct Effect {
    pub number: u8,
    pub notice: u8,
    pub record: Record,
    /// The frame sent, empty for none.
    pub frame: Vec<u8>,
    /// The block handed up, empty for none.
    pub block: Vec<u8>,
}

impl Effect {
    /// The record is left so, and nothing else happens.
    pub fn silent(record: Record) -> Self {
        Self {
            number: 0,
            notice: 0,
            record,
            frame: Vec::new(),
            block: Vec::new(),
        }
    }

    /// The call is refused by this number, and the record left so.
    pub fn refused(record: Record, number: u8) -> Self {
        Self {
            number,
            ..Self::silent(record)
        }
    }

    /// The same with this notice.
    pub fn notice(self, notice: u8) -> Self {
        Self { notice, ..self }
    }

    /// The same with this frame sent.
    pub fn frame(self, frame: Vec<u8>) -> Self {
        Self { frame, ..self }
    }

    /// The same with this block handed up.
    pub fn block(self, block: &[u8]) -> Self {
        Self {
            notice: 5,
            block: block.to_vec(),
            ..self
        }
    }
}

/// Makes a request. A block that it hands up stands at the start of the second buffer, and no other
/// byte of it is written.
pub fn request(record: Record, request: &[u8]) -> Effect {
    let mut up = [UNTOUCHED; LONGEST_BLOCK + 3];
    let effect = effect(record, |record, page, out| {
        call::request(record, page, request, out, &mut up)
    });
    let (block, rest) = up.split_at(effect.block.len());
    assert_eq!(block, effect.block);
    assert!(rest.iter().all(|&byte| byte == UNTOUCHED));
    effect
}

/// Delivers a frame.
pub fn receive(record: Record, frame: &[u8]) -> Effect {
    effect(record, |record, page, out| {
        call::receive(record, page, frame, out)
    })
}

/// Makes the call in buffers longer than needed, with the right page, and checks the bytes it may
/// not write. The page is then the right one for the record that is left.
fn effect<'a>(
    before: Record,
    call: impl FnOnce(&mut [u8], &mut [u8], &mut [u8]) -> Answer<'a>,
) -> Effect {
    let mut record = longer(&before);
    let mut page = longer(&page_of(&before));
    let mut out = [UNTOUCHED; LONGEST_FRAME + 3];
    let answer = call(&mut record, &mut page, &mut out);
    let (after, past) = record.split_first_chunk().unwrap();
    let (frame, rest) = out.split_at(answer.sent);
    assert!([past, rest].concat().iter().all(|&byte| byte == UNTOUCHED));
    assert_eq!(page, longer(&page_of(after)));
    assert_eq!(after[0], answer.state);
    assert_eq!(after[1..5], answer.local.to_be_bytes());
    assert_eq!(after[5..9], answer.remote.to_be_bytes());
    Effect {
        number: answer.number,
        notice: answer.notice,
        record: *after,
        frame: frame.to_vec(),
        block: answer
            .block
            .map_or(Vec::new(), |block| block.bytes().to_vec()),
    }
}

/// The bytes, and some more that no call may write.
fn longer(bytes: &[u8]) -> Vec<u8> {
    [bytes, &[UNTOUCHED; 3]].concat()
}
