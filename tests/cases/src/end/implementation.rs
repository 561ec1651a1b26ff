//! The calls that an implementation of an end offers.

use crate::Reference;
use reference::{call, refusal, Answer, Block};
use std::ops::Range;

/// One implementation of an end.
pub trait End {
    /// Makes the record anew from the page; answers 0, or the number of the refusal.
    fn restart(record: &mut [u8], page: &[u8]) -> u8;
    /// A request of the host; a block that it collects goes up.
    fn request(
        record: &mut [u8],
        page: &mut [u8],
        request: &[u8],
        out: &mut [u8],
        up: &mut [u8],
    ) -> Reply;
    /// A frame that arrives.
    fn receive(record: &mut [u8], page: &[u8], frame: &[u8], out: &mut [u8]) -> Reply;
}

/// What a call answers.
#[derive(Clone, Debug, Default, PartialEq)]
pub struct Reply {
    pub number: u8,
    pub state: u8,
    pub notice: u8,
    pub local: u32,
    pub remote: u32,
    /// The length of the frame sent, 0 for none.
    pub sent: usize,
    /// Where the block handed up stands in the received frame, or in the buffer for a collected
    /// one; 0..0 for none.
    pub block: Range<usize>,
}

impl End for Reference {
    fn restart(record: &mut [u8], page: &[u8]) -> u8 {
        refusal::number(call::restart(record, page))
    }

    fn request(
        record: &mut [u8],
        page: &mut [u8],
        request: &[u8],
        out: &mut [u8],
        up: &mut [u8],
    ) -> Reply {
        let buffer = up.as_ptr_range();
        Reply::of(&call::request(record, page, request, out, up), &[buffer])
    }

    fn receive(record: &mut [u8], page: &[u8], frame: &[u8], out: &mut [u8]) -> Reply {
        let buffer = frame.as_ptr_range();
        Reply::of(&call::receive(record, page, frame, out), &[buffer])
    }
}

impl Reply {
    /// An answer of the reference, whose block is part of one of these buffers.
    pub fn of(answer: &Answer, buffers: &[Range<*const u8>]) -> Self {
        Self {
            number: answer.number,
            state: answer.state,
            notice: answer.notice,
            local: answer.local,
            remote: answer.remote,
            sent: answer.sent,
            block: answer.block.map_or(0..0, |block| place(block, buffers)),
        }
    }
}

/// Where the block stands in that one of the buffers that it is part of.
fn place(block: Block, buffers: &[Range<*const u8>]) -> Range<usize> {
    let bytes = block.bytes();
    let first = bytes.as_ptr();
    let buffer = buffers.iter().find(|buffer| buffer.contains(&first));
    let buffer = buffer.expect("a block is part of what was lent");
    let start = first.addr() - buffer.start.addr();
    start..start + bytes.len()
}
