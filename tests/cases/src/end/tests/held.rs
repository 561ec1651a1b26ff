//! What is wrong about held blocks is found.

use super::super::{End, Reply};
use super::{failed_frames, failed_requests, Faulty};
use crate::records::unsound::{self, Fault};
use crate::records::{held, hold, Numbers, HELD_LENGTHS};
use crate::Reference;
use reference::block::LONGEST_BLOCK;
use reference::frame::Body;
use reference::record::RECORD;
use reference::request::COLLECT;
use reference::{Frame, State};

/// The reference, whose faults have to do with collect.
struct BrokenRequest<const FAULT: u8>;

const ASKS_NO_SECOND_BUFFER: u8 = 0;
const ASKS_A_SECOND_BUFFER_OF_COLLECT_ALONE: u8 = 1;
const WRITES_THE_WHOLE_SECOND_BUFFER: u8 = 2;
const WRITES_UP_AS_IT_REFUSES: u8 = 3;
const HANDS_UP_THE_ONE_AFTER: u8 = 4;
const ACKNOWLEDGES_BEFORE_THE_STEP: u8 = 5;
const COLLECTS_WHILE_CLOSING: u8 = 6;
const REFUSES_WHERE_NONE_IS_HELD: u8 = 7;
const ACKNOWLEDGES_WHERE_NONE_IS_HELD: u8 = 8;
const LEAVES_WHAT_IT_COLLECTS: u8 = 9;
const TELLS_NO_NOTICE: u8 = 10;
const CLOSES_WITH_BLOCKS_HELD: u8 = 11;

impl<const FAULT: u8> Faulty for BrokenRequest<FAULT> {
    fn request(
        record: &mut [u8],
        page: &mut [u8],
        request: &[u8],
        out: &mut [u8],
        up: &mut [u8],
    ) -> Reply {
        let before = record.to_vec();
        let is_collect = request == [COLLECT];
        let own = &mut [0; LONGEST_BLOCK];
        let is_short = up.len() < own.len();
        let mut reply = match FAULT {
            ASKS_NO_SECOND_BUFFER if is_short => {
                Reference::request(record, page, request, out, own)
            }
            ASKS_A_SECOND_BUFFER_OF_COLLECT_ALONE if is_short && !is_collect => {
                Reference::request(record, page, request, out, own)
            }
            _ => Reference::request(record, page, request, out, up),
        };
        match FAULT {
            WRITES_UP_AS_IT_REFUSES if reply.number == 8 && is_collect => up[0] ^= 1,
            COLLECTS_WHILE_CLOSING if reply.number == 8 && is_collect => {
                reply.number *= u8::from(record[0] != State::Closing as u8);
            }
            CLOSES_WITH_BLOCKS_HELD if reply.number == 0 && has_left_open(&before, record) => {
                keep_held(record, &before);
            }
            _ if reply.notice == 5 => Self::spoil_collect(&mut reply, &before, record, out, up),
            _ if reply.number == 0 && is_collect => {
                Self::spoil_none(&mut reply, record, page, out, up);
            }
            _ => {}
        }
        reply
    }
}

impl<const FAULT: u8> BrokenRequest<FAULT> {
    /// Spoils a collect that handed a block up.
    fn spoil_collect(
        reply: &mut Reply,
        before: &[u8],
        record: &mut [u8],
        out: &mut [u8],
        up: &mut [u8],
    ) {
        match FAULT {
            WRITES_THE_WHOLE_SECOND_BUFFER => up[reply.block.end..LONGEST_BLOCK].fill(0),
            ACKNOWLEDGES_BEFORE_THE_STEP => out[9..13].copy_from_slice(&before[13..17]),
            LEAVES_WHAT_IT_COLLECTS => keep_held(record, before),
            TELLS_NO_NOTICE => reply.notice = 0,
            _ => {}
        }
    }

    /// Spoils a collect that found no block e.
    fn spoil_none(
        reply: &mut Reply,
        record: &mut [u8],
        page: &mut [u8],
        out: &mut [u8],
        up: &mut [u8],
    ) {
        match FAULT {
            HANDS_UP_THE_ONE_AFTER => {
                let (record, _) = record.split_first_chunk_mut().expect("a sound record");
                if held(record)[1] > 0 {
                    hold(record, 0, b"the one after");
                    *reply = Reference::request(record, page, &[COLLECT], out, up);
                }
            }
            REFUSES_WHERE_NONE_IS_HELD => reply.number = 8,
            ACKNOWLEDGES_WHERE_NONE_IS_HELD => reply.sent = acknowledge(record, out),
            _ => {}
        }
    }
}

/// Writes the ACK of what an end with this record has handed up; gives its length.
fn acknowledge(record: &[u8], out: &mut [u8]) -> usize {
    let numbers = Numbers::of(record.first_chunk().expect("a sound record"));
    let count = numbers.handed_up;
    Frame::new(numbers.local, numbers.remote, Body::Ack { count }).put(out)
}

/// Leaves what is held as it was before.
fn keep_held(record: &mut [u8], before: &[u8]) {
    record[HELD_LENGTHS..RECORD].copy_from_slice(&before[HELD_LENGTHS..RECORD]);
}

/// Was the end open, and is it no longer?
fn has_left_open(before: &[u8], record: &[u8]) -> bool {
    let open = State::Open as u8;
    before[0] == open && record[0] != open
}

#[test]
fn every_fault_of_collect_is_found() {
    let failed = [
        failed_requests::<BrokenRequest<ASKS_NO_SECOND_BUFFER>>(),
        failed_requests::<BrokenRequest<ASKS_A_SECOND_BUFFER_OF_COLLECT_ALONE>>(),
        failed_requests::<BrokenRequest<WRITES_THE_WHOLE_SECOND_BUFFER>>(),
        failed_requests::<BrokenRequest<WRITES_UP_AS_IT_REFUSES>>(),
        failed_requests::<BrokenRequest<HANDS_UP_THE_ONE_AFTER>>(),
        failed_requests::<BrokenRequest<ACKNOWLEDGES_BEFORE_THE_STEP>>(),
        failed_requests::<BrokenRequest<COLLECTS_WHILE_CLOSING>>(),
        failed_requests::<BrokenRequest<REFUSES_WHERE_NONE_IS_HELD>>(),
        failed_requests::<BrokenRequest<ACKNOWLEDGES_WHERE_NONE_IS_HELD>>(),
        failed_requests::<BrokenRequest<LEAVES_WHAT_IT_COLLECTS>>(),
        failed_requests::<BrokenRequest<TELLS_NO_NOTICE>>(),
        failed_requests::<BrokenRequest<CLOSES_WITH_BLOCKS_HELD>>(),
    ];
    assert!(failed.iter().all(|&failed| failed > 0), "{failed:?}");
}

/// The reference, whose faults have to do with a DATA of the open connection.
struct BrokenData<const FAULT: u8>;

const KEEPS_THE_LATER_COPY: u8 = 0;
const HOLDS_THE_EIGHTH_ABOVE: u8 = 1;
const HOLDS_THE_ONE_BELOW: u8 = 2;
const FORGETS_THE_SEVENTH_ABOVE: u8 = 3;
const LEAVES_THE_PLACES: u8 = 4;
const LEAVES_THE_COPY: u8 = 5;
const CASCADES: u8 = 6;
const IS_HUNG_UP_ON_WITH_BLOCKS_HELD: u8 = 7;
const HANDS_UP_THE_COPY: u8 = 8;

impl<const FAULT: u8> Faulty for BrokenData<FAULT> {
    fn receive(record: &mut [u8], page: &[u8], frame: &[u8], out: &mut [u8]) -> Reply {
        let before = record.to_vec();
        let mut reply = Reference::receive(record, page, frame, out);
        if reply.number > 0 {
            return reply;
        }
        if FAULT == IS_HUNG_UP_ON_WITH_BLOCKS_HELD && has_left_open(&before, record) {
            keep_held(record, &before);
        }
        if let Some((above, block)) = early(&before, frame, &reply) {
            Self::spoil_early(record, above, block);
        }
        if reply.notice == 5 {
            Self::spoil_handed_up(&mut reply, &before, record, page, out);
        }
        reply
    }
}

impl<const FAULT: u8> BrokenData<FAULT> {
    /// Spoils what is held after a block that is so far above e.
    fn spoil_early(record: &mut [u8], above: i64, block: &[u8]) {
        let (record, _) = record.split_first_chunk_mut().expect("a sound record");
        let is_free = held(record)[0] == 0;
        match (FAULT, above) {
            (KEEPS_THE_LATER_COPY, 1..=7) => hold(record, above as usize, block),
            (HOLDS_THE_EIGHTH_ABOVE, 8) if is_free => hold(record, 0, block),
            (HOLDS_THE_ONE_BELOW, -1) if is_free => hold(record, 0, block),
            (FORGETS_THE_SEVENTH_ABOVE, 7) => hold(record, 7, &[]),
            _ => {}
        }
    }

    /// Spoils the step of the awaited block.
    fn spoil_handed_up(
        reply: &mut Reply,
        before: &[u8],
        record: &mut [u8],
        page: &[u8],
        out: &mut [u8],
    ) {
        let had_copy = before[HELD_LENGTHS] > 0;
        match FAULT {
            LEAVES_THE_PLACES => keep_held(record, before),
            LEAVES_THE_COPY if had_copy => {
                let (record, _) = record.split_first_chunk_mut().expect("a sound record");
                hold(record, 0, b"copy");
            }
            CASCADES => {
                let up = &mut [0; LONGEST_BLOCK];
                Reference::request(record, &mut page.to_vec(), &[COLLECT], out, up);
            }
            HANDS_UP_THE_COPY if had_copy => {
                reply.block.end = reply.block.start + usize::from(before[HELD_LENGTHS]);
            }
            _ => {}
        }
    }
}

/// How far a DATA of the open connection that was only acknowledged is above e, and its block.
fn early<'a>(before: &[u8], frame: &'a [u8], reply: &Reply) -> Option<(i64, &'a [u8])> {
    let e = Numbers::of(before.first_chunk()?).handed_up;
    match Frame::read(frame).ok()?.body {
        Body::Data { sequence, block } if reply.notice == 0 && reply.sent > 0 => {
            Some((i64::from(sequence) - i64::from(e), block.bytes()))
        }
        _ => None,
    }
}

#[test]
fn every_fault_of_data_is_found() {
    let failed = [
        failed_frames::<BrokenData<KEEPS_THE_LATER_COPY>>(),
        failed_frames::<BrokenData<HOLDS_THE_EIGHTH_ABOVE>>(),
        failed_frames::<BrokenData<HOLDS_THE_ONE_BELOW>>(),
        failed_frames::<BrokenData<FORGETS_THE_SEVENTH_ABOVE>>(),
        failed_frames::<BrokenData<LEAVES_THE_PLACES>>(),
        failed_frames::<BrokenData<LEAVES_THE_COPY>>(),
        failed_frames::<BrokenData<CASCADES>>(),
        failed_frames::<BrokenData<IS_HUNG_UP_ON_WITH_BLOCKS_HELD>>(),
        failed_frames::<BrokenData<HANDS_UP_THE_COPY>>(),
    ];
    assert!(failed.iter().all(|&failed| failed > 0), "{failed:?}");
}

/// The reference that takes records with this fault for sound.
struct Lenient<const FAULT: usize>;

impl<const FAULT: usize> Lenient<FAULT> {
    /// Mends the record if this is what is wrong with it.
    fn mend(record: &mut [u8]) {
        let fault: Fault = unsound::ALL[FAULT];
        if let Some(record) = record.first_chunk_mut() {
            *record = fault.mended(record).unwrap_or(*record);
        }
    }
}

impl<const FAULT: usize> Faulty for Lenient<FAULT> {
    fn request(
        record: &mut [u8],
        page: &mut [u8],
        request: &[u8],
        out: &mut [u8],
        up: &mut [u8],
    ) -> Reply {
        Self::mend(record);
        Reference::request(record, page, request, out, up)
    }

    fn receive(record: &mut [u8], page: &[u8], frame: &[u8], out: &mut [u8]) -> Reply {
        Self::mend(record);
        Reference::receive(record, page, frame, out)
    }
}

#[test]
fn every_fault_of_soundness_is_found() {
    let failed: [u64; unsound::ALL.len()] = [
        failed_requests::<Lenient<0>>(),
        failed_requests::<Lenient<1>>(),
        failed_requests::<Lenient<2>>(),
        failed_requests::<Lenient<3>>(),
    ];
    assert!(failed.iter().all(|&failed| failed > 0), "{failed:?}");
}
