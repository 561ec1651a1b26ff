//! Lines of a bench and its question. Each line gets both records anew, copies of 1,058 bytes that
//! both implementations pay. No line here reserves a byte of a page.

use crate::measure::{Both, Measure};
use crate::sample::{holding, record, BLOCK};
use cases::bench::{Bench, Lent, Named, Reply, Shown};
use cases::sample::message;
use cases::{pages, Reference};
use compare::proved::Proved;
use reference::bench::book::{place, PLACE, PLACES};
use reference::bench::Side;
use reference::block::LONGEST_BLOCK;
use reference::frame::{ACK, DATA, LONGEST_FRAME};
use reference::page::PAGE;
use reference::record::RECORD;
use reference::State;
use std::hint::black_box;

/// So many lines are timed at once.
const LINES: u32 = 20_000;
/// So many questions are timed at once.
const QUESTIONS: u32 = 100;
/// So many blocks were sent, as the book tells.
const SENT: u32 = PLACES as u32 / 2;

/// A bench and a line for it.
#[derive(Clone)]
struct Case {
    records: [[u8; RECORD]; 2],
    pages: [[u8; PAGE]; 2],
    book: Vec<u8>,
    count: usize,
    line: Vec<u8>,
    out: [u8; LONGEST_FRAME],
    up: [u8; LONGEST_BLOCK],
}

impl Case {
    /// Two open ends. Of the blocks that A sent so many wait, and so many were handed up by B. The
    /// book holds each DATA and the ACK after it, up to this count.
    fn new(waiting: usize, handed_up: u32, count: usize, line: &str) -> Self {
        let book = (0..SENT).flat_map(|number| {
            let data = message(DATA, &[1, 1, number], BLOCK);
            let ack = message(ACK, &[1, 1, number + 1], &[]);
            [place(Side::A, &data), place(Side::B, &ack)]
        });
        let records = [
            record(State::Open, 1, [SENT, 0], waiting),
            record(State::Open, 1, [0, handed_up], 0),
        ];
        Self {
            pages: records.each_ref().map(pages::right),
            records,
            book: book.flatten().collect(),
            count,
            line: line.as_bytes().to_vec(),
            out: [0; LONGEST_FRAME],
            up: [0; LONGEST_BLOCK],
        }
    }

    /// The same, and B holds the next block and the seven after it.
    fn with_all_held(mut self) -> Self {
        self.records[1] = holding(self.records[1], 0..8);
        self
    }

    /// Takes the line so. A frame sent goes to the same place of the book each time.
    fn take(&mut self, take: fn(Lent, &[u8]) -> Reply) {
        let [mut a, mut b] = *black_box(&self.records);
        let lent = Lent {
            records: [&mut a, &mut b],
            pages: self.pages.each_mut().map(|page| &mut page[..]),
            book: &mut self.book,
            count: self.count,
            out: &mut self.out,
            up: &mut self.up,
        };
        black_box(take(lent, black_box(&self.line)));
        black_box(([&a, &b], &self.up));
    }

    /// The same, and the last frame of the book comes first.
    fn with_the_last_first(mut self) -> Self {
        self.book.rotate_right(PLACE);
        self
    }

    /// Asks the question so.
    fn ask(&mut self, first_frame: fn(Shown) -> Named) -> Named {
        let case = black_box(&*self);
        let shown = Shown {
            records: case.records.each_ref().map(|record| &record[..]),
            pages: case.pages.each_ref().map(|page| &page[..]),
            book: &case.book,
            count: case.count,
        };
        black_box(first_frame(shown))
    }
}

/// A line.
const LINE: Both<Case> = Both {
    proved: |case| case.take(Proved::line),
    reference: |case| case.take(Reference::line),
};
/// The question.
const QUESTION: Both<Case> = Both {
    proved: |case| _ = case.ask(Proved::first_frame),
    reference: |case| _ = case.ask(Reference::first_frame),
};

/// Measures typical lines, and the question on a full book.
pub fn measure(measure: &mut impl Measure) {
    let send = format!("504440{}", "78".repeat(64));
    for (name, waiting, handed_up, count, line) in [
        ("bench: send of 64", 0, SENT, PLACES - 1, &send[..]),
        ("bench: DATA of 64", 0, SENT - 1, PLACES - 1, "5201fe"),
        (
            "bench: DATA of 64 to be held",
            0,
            SENT - 2,
            PLACES - 1,
            "5201fe",
        ),
        ("bench: collect with none held", 0, SENT, PLACES - 1, "5146"),
        ("bench: passed over", 0, SENT, PLACES - 1, "520001"),
        ("bench: restart", 0, SENT, PLACES - 1, "5350"),
        ("bench: refused by 2", 0, SENT, PLACES - 1, "zz"),
        ("bench: refused by 14", 1, SENT, PLACES, "5045"),
    ] {
        let mut case = Case::new(waiting, handed_up, count, line);
        measure.call(name, LINES, &mut case, LINE);
    }
    let mut case = Case::new(0, SENT, PLACES - 1, "5146").with_all_held();
    measure.call("bench: collect of 64 with 8 held", LINES, &mut case, LINE);
    let last = Case::new(1, SENT, PLACES, "");
    for (name, mut case, frame) in [
        (
            "question: none of 512 frames",
            Case::new(0, SENT, PLACES, ""),
            None,
        ),
        (
            "question: the last of 512 frames",
            last.clone(),
            Some(PLACES - 1),
        ),
        (
            "question: the first of 512 frames",
            last.with_the_last_first(),
            Some(0),
        ),
    ] {
        assert_eq!(case.ask(Reference::first_frame).frame, frame);
        measure.call(name, QUESTIONS, &mut case, QUESTION);
    }
}
