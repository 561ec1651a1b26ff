//! Blocks of 64 bytes, and records with them.

use cases::records::{hold, Numbers};
use reference::record::RECORD;
use reference::State;

/// A block of 64 bytes.
pub const BLOCK: &[u8] = &[b'x'; 64];

/// A record with L = 1, this D, these counts t and e, and so many waiting blocks.
pub fn record(state: State, remote: u32, counts: [u32; 2], waiting: usize) -> [u8; RECORD] {
    waiting_of(BLOCK.len(), state, remote, counts, waiting)
}

/// The same with waiting blocks of so many bytes.
pub fn waiting_of(
    bytes: usize,
    state: State,
    remote: u32,
    [accepted, handed_up]: [u32; 2],
    waiting: usize,
) -> [u8; RECORD] {
    let numbers = Numbers {
        local: 1,
        remote,
        accepted,
        handed_up,
    };
    numbers.record(state, &vec![BLOCK[..bytes].to_vec(); waiting])
}

/// The record of a closed end with this L.
pub fn numbered(local: u32) -> [u8; RECORD] {
    let numbers = Numbers {
        local,
        remote: 0,
        accepted: 0,
        handed_up: 0,
    };
    numbers.record(State::Closed, &[])
}

/// The record with blocks held so far above e.
pub fn holding(mut record: [u8; RECORD], above: impl IntoIterator<Item = usize>) -> [u8; RECORD] {
    for above in above {
        hold(&mut record, above, BLOCK);
    }
    record
}
