//! What is wrong about the rows that tell a partner of a restart is found.

use super::super::{End, Reply};
use super::{failed_frames, Faulty};
use crate::records::Numbers;
use crate::Reference;
use reference::frame::{Body, Signal};
use reference::{Frame, State};
use std::cmp::Ordering;

/// The reference, whose faults have to do with a REJ that is sent or heard.
struct Broken<const FAULT: u8>;

const CLOSED_PASSES_CRACK_OVER: u8 = 0;
const CLOSED_PASSES_DATA_OVER: u8 = 1;
const CLOSED_PASSES_ACK_OVER: u8 = 2;
const OPEN_PASSES_REJ_OVER: u8 = 3;
const OPEN_HEARS_REJ_ONLY_WITH_S_EQUAL_TO_D: u8 = 4;
const OPEN_HEARS_REJ_ONLY_WITH_S_ABOVE_D: u8 = 5;
const OPEN_IS_REJECTED: u8 = 6;

impl<const FAULT: u8> Broken<FAULT> {
    /// Is a frame of this kind, with such an s and right r, one that this end passes over?
    fn passes_over(state: State, kind: u8, sender: Ordering) -> bool {
        let rej = Signal::Rej as u8;
        match FAULT {
            CLOSED_PASSES_CRACK_OVER => state == State::Closed && kind == Signal::Crack as u8,
            CLOSED_PASSES_DATA_OVER => state == State::Closed && kind == 8,
            CLOSED_PASSES_ACK_OVER => state == State::Closed && kind == 9,
            OPEN_PASSES_REJ_OVER => state == State::Open && kind == rej,
            OPEN_HEARS_REJ_ONLY_WITH_S_EQUAL_TO_D => {
                state == State::Open && kind == rej && sender == Ordering::Greater
            }
            OPEN_HEARS_REJ_ONLY_WITH_S_ABOVE_D => {
                state == State::Open && kind == rej && sender == Ordering::Equal
            }
            _ => false,
        }
    }
}

impl<const FAULT: u8> Faulty for Broken<FAULT> {
    fn receive(record: &mut [u8], page: &[u8], frame: &[u8], out: &mut [u8]) -> Reply {
        let before = record.to_vec();
        let mut reply = Reference::receive(record, page, frame, out);
        let (Some(found), Ok(read), 0) = (before.first_chunk(), Frame::read(frame), reply.number)
        else {
            return reply;
        };
        let numbers = Numbers::of(found);
        let state = State::of(found[0]).expect("the record is sound");
        let sender = read.sender.cmp(&numbers.remote);
        if Self::passes_over(state, read.body.kind(), sender) {
            record.copy_from_slice(&before);
            reply.notice = 0;
            reply.sent = 0;
        }
        let is_rej = read.body == Body::Signal(Signal::Rej);
        if FAULT == OPEN_IS_REJECTED && state == State::Open && is_rej && reply.notice == 3 {
            reply.notice = 2;
        }
        reply
    }
}

#[test]
fn every_fault_of_a_rejection_is_found() {
    let failed = [
        failed_frames::<Broken<CLOSED_PASSES_CRACK_OVER>>(),
        failed_frames::<Broken<CLOSED_PASSES_DATA_OVER>>(),
        failed_frames::<Broken<CLOSED_PASSES_ACK_OVER>>(),
        failed_frames::<Broken<OPEN_PASSES_REJ_OVER>>(),
        failed_frames::<Broken<OPEN_HEARS_REJ_ONLY_WITH_S_EQUAL_TO_D>>(),
        failed_frames::<Broken<OPEN_HEARS_REJ_ONLY_WITH_S_ABOVE_D>>(),
        failed_frames::<Broken<OPEN_IS_REJECTED>>(),
    ];
    assert!(failed.iter().all(|&failed| failed > 0), "{failed:?}");
}
