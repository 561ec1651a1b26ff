//! The comparison finds what is wrong, and nothing else.

mod hanging_up;
mod held;
mod page;
mod rejection;

use super::{compare, frames, nothing_met, requests, End, Reply};
use crate::Reference;
use reference::frame::LONGEST_FRAME;
use reference::record::{Record, RECORD};
use reference::Frame;

/// An end that is the reference but for the calls that it makes otherwise.
trait Faulty {
    fn restart(record: &mut [u8], page: &[u8]) -> u8 {
        Reference::restart(record, page)
    }

    fn request(
        record: &mut [u8],
        page: &mut [u8],
        request: &[u8],
        out: &mut [u8],
        up: &mut [u8],
    ) -> Reply {
        Reference::request(record, page, request, out, up)
    }

    fn receive(record: &mut [u8], page: &[u8], frame: &[u8], out: &mut [u8]) -> Reply {
        Reference::receive(record, page, frame, out)
    }
}

impl<T: Faulty> End for T {
    fn restart(record: &mut [u8], page: &[u8]) -> u8 {
        <T as Faulty>::restart(record, page)
    }

    fn request(
        record: &mut [u8],
        page: &mut [u8],
        request: &[u8],
        out: &mut [u8],
        up: &mut [u8],
    ) -> Reply {
        <T as Faulty>::request(record, page, request, out, up)
    }

    fn receive(record: &mut [u8], page: &[u8], frame: &[u8], out: &mut [u8]) -> Reply {
        <T as Faulty>::receive(record, page, frame, out)
    }
}

/// The reference, with its promises checked at each call.
struct Checked;

impl End for Checked {
    fn restart(record: &mut [u8], page: &[u8]) -> u8 {
        let before = record.to_vec();
        let number = Reference::restart(record, page);
        match number {
            0 => assert_eq!(record[RECORD..], before[RECORD..]),
            _ => assert_eq!(record, before),
        }
        number
    }

    fn request(
        record: &mut [u8],
        page: &mut [u8],
        request: &[u8],
        out: &mut [u8],
        up: &mut [u8],
    ) -> Reply {
        let before = up.to_vec();
        let page_before = page.to_vec();
        let reply = checked(record, out, |record, out| {
            Reference::request(record, page, request, out, up)
        });
        assert!(reply.number == 0 || page == page_before);
        let stored = page.iter().zip(&page_before).filter(|(a, b)| a != b);
        assert!(stored.count() <= 1);
        assert_eq!(reply.block.start, 0);
        assert_eq!(up[reply.block.end..], before[reply.block.end..]);
        reply
    }

    fn receive(record: &mut [u8], page: &[u8], frame: &[u8], out: &mut [u8]) -> Reply {
        checked(record, out, |record, out| {
            Reference::receive(record, page, frame, out)
        })
    }
}

/// Makes the call. A refusal leaves all bytes; a success leaves a sound record, an L not below
/// the one before and not above the last number, a readable frame, a block with notice 5 alone, and all other bytes.
fn checked(
    record: &mut [u8],
    out: &mut [u8],
    call: impl FnOnce(&mut [u8], &mut [u8]) -> Reply,
) -> Reply {
    let record_before = record.to_vec();
    let out_before = out.to_vec();
    let reply = call(record, out);
    if reply.number == 0 {
        let (sound, rest) = record.split_first_chunk_mut::<RECORD>().unwrap();
        assert!(Record::read(sound).is_ok());
        assert!(sound[1..5] >= record_before[1..5]);
        assert!(reply.local <= 65_536);
        assert_eq!(rest, &record_before[RECORD..]);
        let (frame, rest) = out.split_at(reply.sent);
        assert_eq!(rest, &out_before[reply.sent..]);
        assert!(frame.is_empty() || Frame::read(frame).is_ok());
        assert_eq!(reply.block.is_empty(), reply.notice != 5);
    } else {
        assert_eq!(record, record_before);
        assert_eq!(out, out_before);
        assert_eq!((reply.notice, reply.sent, reply.block.len()), (0, 0, 0));
    }
    reply
}

#[test]
fn the_reference_equals_itself_and_keeps_its_promises() {
    let score = compare::<Checked>(1);
    assert_eq!(score.failed, 0);
    assert!(score.passed > 150_000);
}

/// How many requests of an implementation fail.
fn failed_requests<E: End>() -> u64 {
    let group = requests::<E>(1, &mut nothing_met());
    group.report().failed
}

/// How many frames of an implementation fail.
fn failed_frames<E: End>() -> u64 {
    let group = frames::<E>(1, &mut nothing_met());
    group.report().failed
}

/// The reference with a fault.
struct Broken<const FAULT: u8>;

const RESTART_WRITES_ONE_MORE: u8 = 0;
const WRITES_PAST_THE_FRAME: u8 = 1;
const WRITES_THE_WHOLE_FRAME_BUFFER: u8 = 2;
const WRITES_AS_IT_REFUSES: u8 = 3;
const LEAVES_A_BYTE_OF_A_BLOCK: u8 = 4;
const FORGETS_THE_FRAME_BUFFER: u8 = 5;
const BLOCK_ONE_TOO_SHORT: u8 = 6;
const ANSWERS_THE_NUMBER_BEFORE: u8 = 7;

impl<const FAULT: u8> Broken<FAULT> {
    /// Makes the call with the fault.
    fn call(
        record: &mut [u8],
        out: &mut [u8],
        call: impl FnOnce(&mut [u8], &mut [u8]) -> Reply,
    ) -> Reply {
        let local = record.get(4).copied();
        let room = out.len();
        let mut reply = match FAULT {
            FORGETS_THE_FRAME_BUFFER if room < LONGEST_FRAME => {
                call(record, &mut [0; LONGEST_FRAME])
            }
            _ => call(record, out),
        };
        match FAULT {
            WRITES_PAST_THE_FRAME if (1..room).contains(&reply.sent) => out[reply.sent] ^= 1,
            WRITES_THE_WHOLE_FRAME_BUFFER if reply.sent > 0 => out[reply.sent..].fill(0),
            WRITES_AS_IT_REFUSES if reply.number == 10 => record[RECORD - 1] ^= 1,
            LEAVES_A_BYTE_OF_A_BLOCK if reply.notice == 3 => record[RECORD - 1] = 1,
            BLOCK_ONE_TOO_SHORT if reply.notice == 5 => reply.block.end -= 1,
            ANSWERS_THE_NUMBER_BEFORE if reply.number == 0 => {
                reply.local = reply.local & !0xff | u32::from(local.unwrap_or(0));
            }
            _ => {}
        }
        reply
    }
}

impl<const FAULT: u8> Faulty for Broken<FAULT> {
    fn restart(record: &mut [u8], page: &[u8]) -> u8 {
        let number = Reference::restart(record, page);
        match record.get_mut(RECORD) {
            Some(next) if FAULT == RESTART_WRITES_ONE_MORE => *next = !*next,
            _ => {}
        }
        number
    }

    fn request(
        record: &mut [u8],
        page: &mut [u8],
        request: &[u8],
        out: &mut [u8],
        up: &mut [u8],
    ) -> Reply {
        Self::call(record, out, |record, out| {
            Reference::request(record, page, request, out, up)
        })
    }

    fn receive(record: &mut [u8], page: &[u8], frame: &[u8], out: &mut [u8]) -> Reply {
        Self::call(record, out, |record, out| {
            Reference::receive(record, page, frame, out)
        })
    }
}

#[test]
fn every_fault_is_found() {
    let failed = [
        compare::<Broken<RESTART_WRITES_ONE_MORE>>(1),
        compare::<Broken<WRITES_PAST_THE_FRAME>>(1),
        compare::<Broken<WRITES_THE_WHOLE_FRAME_BUFFER>>(1),
        compare::<Broken<WRITES_AS_IT_REFUSES>>(1),
        compare::<Broken<LEAVES_A_BYTE_OF_A_BLOCK>>(1),
        compare::<Broken<FORGETS_THE_FRAME_BUFFER>>(1),
        compare::<Broken<BLOCK_ONE_TOO_SHORT>>(1),
        compare::<Broken<ANSWERS_THE_NUMBER_BEFORE>>(1),
    ]
    .map(|score| score.failed);
    assert!(failed.iter().all(|&failed| failed > 0), "{failed:?}");
}
