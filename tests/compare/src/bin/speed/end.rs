//! The calls of an end. Each call gets its record anew, a copy of 1,058 bytes that both
//! implementations pay; of the page the one byte that a call may have reserved is freed again.

use crate::measure::{Both, Measure};
use crate::sample::{holding, numbered, record, waiting_of, BLOCK};
use cases::end::End;
use cases::pages;
use cases::sample::message;
use cases::Reference;
use compare::proved::Proved;
use reference::block::LONGEST_BLOCK;
use reference::frame::LONGEST_FRAME;
use reference::page::{self, PAGE};
use reference::record::RECORD;
use reference::State;
use std::hint::black_box;

/// So many calls are timed at once.
const BATCH: u32 = 20_000;

/// A record with its page, and what is asked of them.
struct Case {
    record: [u8; RECORD],
    page: [u8; PAGE],
    /// The page's first byte that is not reserved, if there is one.
    free: usize,
    message: Vec<u8>,
    out: [u8; LONGEST_FRAME],
    up: [u8; LONGEST_BLOCK],
}

impl Case {
    /// This implementation receives the message.
    fn receive<E: End>(&mut self) {
        let mut record = *black_box(&self.record);
        let message = black_box(&self.message);
        let page = black_box(&self.page);
        black_box(E::receive(&mut record, page, message, &mut self.out));
        black_box(&record);
    }

    /// This implementation is asked for it.
    fn request<E: End>(&mut self) {
        let mut record = *black_box(&self.record);
        let message = black_box(&self.message);
        black_box(E::request(
            &mut record,
            black_box(&mut self.page),
            message,
            &mut self.out,
            &mut self.up,
        ));
        black_box((&record, &self.up));
        if let Some(byte) = self.page.get_mut(self.free) {
            *byte = page::NEW[self.free];
        }
    }

    /// This implementation makes the record anew from the page.
    fn restart<E: End>(&mut self) {
        let mut record = *black_box(&self.record);
        black_box(E::restart(&mut record, black_box(&self.page)));
        black_box(&record);
    }

    /// A plain comparison of the page with a new one, the measure of what a look at each of its
    /// bytes takes.
    fn plain(&mut self) {
        black_box(*black_box(&self.page) == page::NEW);
    }
}

/// A frame that arrives.
const RECEIVE: Both<Case> = Both {
    proved: Case::receive::<Proved>,
    reference: Case::receive::<Reference>,
};
/// A request.
const REQUEST: Both<Case> = Both {
    proved: Case::request::<Proved>,
    reference: Case::request::<Reference>,
};

/// A restart.
const RESTART: Both<Case> = Both {
    proved: Case::restart::<Proved>,
    reference: Case::restart::<Reference>,
};
/// A plain comparison, the same for both.
const PLAIN: Both<Case> = Both {
    proved: Case::plain,
    reference: Case::plain,
};

/// Measures typical calls.
pub fn measure(measure: &mut impl Measure) {
    let fresh = [0; RECORD];
    let closed = record(State::Closed, 0, [0, 0], 0);
    let half = numbered(32_768);
    let last = numbered(65_535);
    let used_up = numbered(65_536);
    let listening = record(State::Listening, 0, [0, 0], 0);
    let calling = record(State::Calling, 0, [0, 0], 0);
    let called = record(State::Calling, 7, [0, 0], 0);
    let answering = record(State::Answering, 7, [0, 0], 0);
    let open = record(State::Open, 7, [0, 0], 0);
    let full = record(State::Open, 7, [8, 0], 8);
    let short = waiting_of(20, State::Open, 7, [8, 0], 8);
    let early = holding(open, 1..8);
    let next = holding(open, [0]);
    let all = holding(open, 0..8);
    let crowded = holding(full, 0..8);
    let closing = record(State::Closing, 7, [0, 0], 0);
    for (name, record, frame) in [
        ("closed: CRAO", closed, frame(1, 0)),
        ("closed: DATA of 64", closed, frame(8, 0)),
        ("closed: CRAO with half a page", half, frame(1, 0)),
        ("listening: CRAO", listening, frame(1, 0)),
        ("calling: CRPO", calling, frame(2, 0)),
        ("answering: CRACK", answering, frame(3, 0)),
        ("open: DATA of 64", open, frame(8, 0)),
        ("open: DATA of 64 with 7 held", early, frame(8, 0)),
        ("open: DATA of 64 to be held", open, frame(8, 3)),
        ("open: DATA of 64 held already", early, frame(8, 3)),
        ("open: ACK of 1 of 8", full, frame(9, 1)),
        ("open: REJ", open, frame(4, 0)),
        ("open: REJ with 8 waiting and 8 held", crowded, frame(4, 0)),
        ("open: passed over", open, frame(5, 0)),
        ("closing: DRACK", closing, frame(7, 0)),
    ] {
        compare(measure, name, record, frame, RECEIVE);
    }
    for (name, record, kind) in [
        ("closed: connect, first byte reserved", fresh, 0x40),
        ("closed: connect, none reserved", closed, 0x40),
        ("closed: connect, middle byte reserved", half, 0x40),
        ("closed: connect with the last number", last, 0x40),
        ("closed: connect refused by 9", used_up, 0x40),
        ("calling: close with D = 0", calling, 0x43),
        ("calling: close with D = 7", called, 0x43),
        ("open: close", open, 0x43),
        ("open: close with 8 waiting and 8 held", crowded, 0x43),
        ("open: send of 64", open, 0x44),
        ("open: timer with none waiting", open, 0x45),
        ("open: timer with 8 waiting", full, 0x45),
        ("open: timer with 8 waiting and 8 held", crowded, 0x45),
        ("open: timer with 8 short ones waiting", short, 0x45),
        ("open: collect with none held", open, 0x46),
        ("open: collect of 64 with 1 held", next, 0x46),
        ("open: collect of 64 with 8 held", all, 0x46),
    ] {
        compare(measure, name, record, message(kind, &[], BLOCK), REQUEST);
    }
    for (name, record) in [
        ("restart with a new page", fresh),
        ("restart with half a page", half),
        ("restart with a page used up", used_up),
    ] {
        compare(measure, name, record, Vec::new(), RESTART);
    }
    compare(measure, PLAIN_NAME, fresh, Vec::new(), PLAIN);
}

/// What the plain comparison is called.
const PLAIN_NAME: &str = "(a plain comparison of 4,096 bytes)";

/// Measures the call of an end with this record.
fn compare(
    measure: &mut impl Measure,
    name: &str,
    record: [u8; RECORD],
    message: Vec<u8>,
    both: Both<Case>,
) {
    let page = pages::right(&record);
    let mut case = Case {
        record,
        free: page.partition_point(|&byte| byte == 0),
        page,
        message,
        out: [0; LONGEST_FRAME],
        up: [0; LONGEST_BLOCK],
    };
    measure.call(name, BATCH, &mut case, both);
}

/// A frame with s = 7 and r = 1, as the records expect them, and where it has them this number and
/// a block.
fn frame(kind: u8, number: u32) -> Vec<u8> {
    message(kind, &[7, 1, number], BLOCK)
}
