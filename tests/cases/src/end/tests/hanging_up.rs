//! What is wrong about a call that is hung up is found.

use super::super::{End, Reply};
use super::{failed_requests, Faulty};
use crate::records::Numbers;
use crate::Reference;
use reference::frame::{Body, Signal};
use reference::request::CLOSE;
use reference::{Frame, State};

/// The reference, whose faults have to do with a close that is not the one of an open end.
struct Broken<const FAULT: u8>;

const REFUSES_WITHOUT_A_PARTNER: u8 = 0;
const REFUSES_WITH_A_PARTNER: u8 = 1;
const TELLS_NO_NOTICE: u8 = 2;
const TELLS_OF_A_REJECTION: u8 = 3;
const GIVES_THE_NUMBER_BACK: u8 = 4;
const WAITS_FOR_NOBODY: u8 = 5;
const CLOSES_WITHOUT_TELLING: u8 = 6;
const TELLS_OF_THE_END_TOO_EARLY: u8 = 7;
const FORGETS_THE_PARTNER: u8 = 8;
const HANGS_UP_WHILE_ANSWERING: u8 = 9;

impl<const FAULT: u8> Faulty for Broken<FAULT> {
    fn request(
        record: &mut [u8],
        page: &mut [u8],
        request: &[u8],
        out: &mut [u8],
        up: &mut [u8],
    ) -> Reply {
        let before = record.first_chunk().copied();
        let mut reply = Reference::request(record, page, request, out, up);
        if let (Some(before), [CLOSE], 0 | 8) = (before, request, reply.number) {
            let numbers = Numbers::of(&before);
            match (State::of(before[0]), numbers.remote) {
                (Some(State::Calling), 0) => {
                    Self::spoil_unheard(&mut reply, numbers, record, out);
                }
                (Some(State::Calling), _) => Self::spoil_heard(&mut reply, record),
                (Some(State::Answering), _) if FAULT == HANGS_UP_WHILE_ANSWERING => {
                    reply.number = 0;
                }
                _ => {}
            }
        }
        reply
    }
}

impl<const FAULT: u8> Broken<FAULT> {
    /// Spoils a hang-up where no partner is known.
    fn spoil_unheard(reply: &mut Reply, numbers: Numbers, record: &mut [u8], out: &mut [u8]) {
        match FAULT {
            REFUSES_WITHOUT_A_PARTNER => reply.number = 8,
            TELLS_NO_NOTICE => reply.notice = 0,
            TELLS_OF_A_REJECTION => reply.notice = 2,
            GIVES_THE_NUMBER_BACK => record[4] = record[4].wrapping_sub(1),
            WAITS_FOR_NOBODY => {
                record[0] = State::Closing as u8;
                reply.sent = Frame::new(numbers.local, 0, Body::Signal(Signal::Dr)).put(out);
            }
            _ => {}
        }
    }

    /// Spoils a hang-up of which the partner is told.
    fn spoil_heard(reply: &mut Reply, record: &mut [u8]) {
        match FAULT {
            REFUSES_WITH_A_PARTNER => reply.number = 8,
            CLOSES_WITHOUT_TELLING => reply.sent = 0,
            TELLS_OF_THE_END_TOO_EARLY => reply.notice = 4,
            FORGETS_THE_PARTNER => record[5..9].fill(0),
            _ => {}
        }
    }
}

#[test]
fn every_fault_of_a_hang_up_is_found() {
    let failed = [
        failed_requests::<Broken<REFUSES_WITHOUT_A_PARTNER>>(),
        failed_requests::<Broken<REFUSES_WITH_A_PARTNER>>(),
        failed_requests::<Broken<TELLS_NO_NOTICE>>(),
        failed_requests::<Broken<TELLS_OF_A_REJECTION>>(),
        failed_requests::<Broken<GIVES_THE_NUMBER_BACK>>(),
        failed_requests::<Broken<WAITS_FOR_NOBODY>>(),
        failed_requests::<Broken<CLOSES_WITHOUT_TELLING>>(),
        failed_requests::<Broken<TELLS_OF_THE_END_TOO_EARLY>>(),
        failed_requests::<Broken<FORGETS_THE_PARTNER>>(),
        failed_requests::<Broken<HANGS_UP_WHILE_ANSWERING>>(),
    ];
    assert!(failed.iter().all(|&failed| failed > 0), "{failed:?}");
}
