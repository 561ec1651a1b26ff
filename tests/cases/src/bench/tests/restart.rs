//! What is wrong about restarts and pages on a bench is found.

use super::super::{nothing_met, restarted, restarts};
use super::{failed, failed_lines, failed_questions, Faulty};
use crate::bench::{Bench, Lent, Named, Reply, Shown};
use crate::pages;
use crate::Reference;
use reference::bench::book::PLACES;
use reference::bench::Side;
use reference::page::{self, PAGE};
use reference::record::{ask_sound, RECORD};

/// How many lines of a round that restart or nearly do fail.
fn failed_restarts<B: Bench>() -> u64 {
    restarts::<B>(1, &mut nothing_met()).report().failed
}

/// The reference, whose faults have to do with a line 53.
struct Broken<const FAULT: u8>;

const ASKS_THE_RECORD_IT_REPLACES: u8 = 0;
const ASKS_THE_COUNT_OF_THE_END_RESTARTED: u8 = 1;
const FORGETS_THE_OTHER_RECORD: u8 = 2;
const FORGETS_THE_OTHER_PAGE: u8 = 3;
const FORGETS_THE_RUN: u8 = 4;
const ASKS_14: u8 = 5;
const EMPTIES_THE_BOOK: u8 = 6;
const RESTARTS_BOTH: u8 = 7;
const TELLS_OF_A: u8 = 8;
const TELLS_OF_THE_END_AS_IT_REFUSES: u8 = 9;
const WITHOUT_AN_END_BYTE_IS_3: u8 = 10;
const MORE_AFTER_ANOTHER_END_BYTE_IS_4: u8 = 11;
const MORE_IS_TAKEN: u8 = 12;
const STORES_IN_THE_PAGE: u8 = 13;
const TELLS_A_NOTICE: u8 = 14;
const LEAVES_RECORDS_UNASKED_WHERE_MORE_FOLLOWS: u8 = 15;
const FAULTS: usize = 16;

impl<const FAULT: u8> Faulty for Broken<FAULT> {
    fn line(lent: Lent, line: &[u8]) -> Reply {
        let Lent {
            records: [a, b],
            pages: [a_page, b_page],
            book,
            count,
            out,
            up,
        } = lent;
        let mut own = Own::new([&*a, &*b], [&*a_page, &*b_page]);
        own.mend::<FAULT>(line);
        let line = match FAULT {
            MORE_IS_TAKEN if line.starts_with(b"5350") => &line[..4],
            _ => line,
        };
        let end = restarted(line);
        let unsound = end.is_some_and(|end| own.is_unsound(end));
        let wrong = end.is_some_and(|end| !own.is_right(end));
        let mut reply = Reference::line(
            Lent {
                records: own.records.each_mut().map(|record| &mut record[..]),
                pages: own.pages.each_mut().map(|page| &mut page[..]),
                book,
                count,
                out,
                up,
            },
            line,
        );
        if reply.end.number == 0 {
            a.copy_from_slice(&own.records[0]);
            b.copy_from_slice(&own.records[1]);
            a_page.copy_from_slice(&own.pages[0]);
            b_page.copy_from_slice(&own.pages[1]);
        }
        match (FAULT, end, reply.end.number) {
            (ASKS_THE_RECORD_IT_REPLACES, Some(_), 0) if unsound => reply.end.number = 12,
            (ASKS_THE_COUNT_OF_THE_END_RESTARTED, Some(_), 0) if wrong => reply.end.number = 15,
            (ASKS_14, Some(_), 0) if count == PLACES => reply.end.number = 14,
            (EMPTIES_THE_BOOK, Some(_), 0) => reply.count = 0,
            (RESTARTS_BOTH, Some(_), 0) => a[..RECORD].copy_from_slice(&b[..RECORD]),
            (TELLS_OF_A, Some(_), 0) => reply.side = 0,
            (TELLS_OF_THE_END_AS_IT_REFUSES, Some(end), 1..) => reply.side = end as u8,
            (WITHOUT_AN_END_BYTE_IS_3, _, 4) if line == b"53" => reply.end.number = 3,
            (MORE_AFTER_ANOTHER_END_BYTE_IS_4, None, 3) if has_more(line) => reply.end.number = 4,
            (STORES_IN_THE_PAGE, Some(Side::A), 0) => a_page[PAGE - 1] = 0,
            (TELLS_A_NOTICE, Some(_), 0) => reply.end.notice = 3,
            _ => {}
        }
        reply
    }
}

/// Is it a line 53 with more than an end byte?
fn has_more(line: &[u8]) -> bool {
    line.starts_with(b"53") && line.len() > 4
}

/// Copies of the records and pages, in which a fault can be overlooked.
struct Own {
    records: [Vec<u8>; 2],
    pages: [Vec<u8>; 2],
}

impl Own {
    fn new(records: [&[u8]; 2], pages: [&[u8]; 2]) -> Self {
        Self {
            records: records.map(<[u8]>::to_vec),
            pages: pages.map(<[u8]>::to_vec),
        }
    }

    /// Mends what an implementation with this fault does not ask of this line.
    fn mend<const FAULT: u8>(&mut self, line: &[u8]) {
        let nearly = has_more(line).then(|| restarted(&line[..4])).flatten();
        match (FAULT, restarted(line)) {
            (FORGETS_THE_OTHER_RECORD, Some(end)) if self.is_unsound(end.other()) => {
                self.make_fresh(end.other());
            }
            (FORGETS_THE_OTHER_PAGE, Some(end)) if !self.is_unsound(end.other()) => {
                self.make_right(end.other());
            }
            (FORGETS_THE_RUN, Some(end)) => self.make_run(end),
            (LEAVES_RECORDS_UNASKED_WHERE_MORE_FOLLOWS, None) => {
                if let Some(end) = nearly.filter(|&end| self.is_unsound(end)) {
                    self.make_fresh(end);
                }
            }
            _ => {}
        }
    }

    /// Has this end an unsound record?
    fn is_unsound(&self, end: Side) -> bool {
        let record = self.records[end.index()].first_chunk();
        record.is_some_and(|record| ask_sound(record).is_err())
    }

    /// Has this end a page that is right for its record?
    fn is_right(&self, end: Side) -> bool {
        let record = self.records[end.index()].first_chunk();
        let right = record.map(pages::right);
        right.is_some_and(|right| self.pages[end.index()].starts_with(&right))
    }

    /// Gives this end a fresh record and a new page.
    fn make_fresh(&mut self, end: Side) {
        let end = end.index();
        self.records[end][..RECORD].fill(0);
        if let Some(page) = self.pages[end].first_chunk_mut() {
            *page = page::NEW;
        }
    }

    /// Gives this end the right page for its record.
    fn make_right(&mut self, end: Side) {
        let end = end.index();
        let record = self.records[end].first_chunk();
        if let (Some(record), Some(page)) = (record, self.pages[end].first_chunk_mut()) {
            *page = pages::right(record);
        }
    }

    /// Gives this end a page that is a run, if it has none.
    fn make_run(&mut self, end: Side) {
        if let Some(page) = self.pages[end.index()].first_chunk_mut() {
            if page::restarted(page).is_err() {
                *page = page::NEW;
            }
        }
    }
}

#[test]
fn every_fault_of_a_restart_on_the_bench_is_found() {
    let failed: [u64; FAULTS] = [
        failed_restarts::<Broken<ASKS_THE_RECORD_IT_REPLACES>>(),
        failed_restarts::<Broken<ASKS_THE_COUNT_OF_THE_END_RESTARTED>>(),
        failed_restarts::<Broken<FORGETS_THE_OTHER_RECORD>>(),
        failed_restarts::<Broken<FORGETS_THE_OTHER_PAGE>>(),
        failed_restarts::<Broken<FORGETS_THE_RUN>>(),
        failed_restarts::<Broken<ASKS_14>>(),
        failed_restarts::<Broken<EMPTIES_THE_BOOK>>(),
        failed_restarts::<Broken<RESTARTS_BOTH>>(),
        failed_restarts::<Broken<TELLS_OF_A>>(),
        failed_restarts::<Broken<TELLS_OF_THE_END_AS_IT_REFUSES>>(),
        failed_restarts::<Broken<WITHOUT_AN_END_BYTE_IS_3>>(),
        failed_restarts::<Broken<MORE_AFTER_ANOTHER_END_BYTE_IS_4>>(),
        failed_restarts::<Broken<MORE_IS_TAKEN>>(),
        failed_restarts::<Broken<STORES_IN_THE_PAGE>>(),
        failed_restarts::<Broken<TELLS_A_NOTICE>>(),
        failed_restarts::<Broken<LEAVES_RECORDS_UNASKED_WHERE_MORE_FOLLOWS>>(),
    ];
    assert!(failed.iter().all(|&failed| failed > 0), "{failed:?}");
}

/// The reference, whose faults have to do with the pages of other lines and of the question.
struct Paging<const FAULT: u8>;

const STORES_BEFORE_14: u8 = 0;
const STORES_IN_THE_OTHER_PAGE: u8 = 1;
const ASKS_15_AFTER_1: u8 = 2;
const ASKS_ONE_PAGE_ALONE: u8 = 3;
const QUESTION_ASKS_NO_PAGE: u8 = 4;
const QUESTION_ASKS_15_FIRST: u8 = 5;

impl<const FAULT: u8> Faulty for Paging<FAULT> {
    fn line(lent: Lent, line: &[u8]) -> Reply {
        let [a_page, b_page] = lent.pages;
        let before = [a_page.to_vec(), b_page.to_vec()];
        let (record, mut right) = (lent.records[1].to_vec(), before[1].clone());
        if let (Some(record), Some(page)) = (record.first_chunk(), right.first_chunk_mut()) {
            *page = pages::right(record);
        }
        let forgets = FAULT == ASKS_ONE_PAGE_ALONE && line.starts_with(b"50");
        let broken = Lent {
            pages: [
                &mut *a_page,
                if forgets { &mut right } else { &mut *b_page },
            ],
            ..lent
        };
        let mut reply = Reference::line(broken, line);
        let is_new = *a_page != before[0];
        match FAULT {
            STORES_BEFORE_14 if reply.end.number == 14 && line == b"5040" => {
                if let Some(byte) = a_page[..PAGE].iter_mut().find(|byte| **byte == 0xff) {
                    *byte = 0;
                }
            }
            STORES_IN_THE_OTHER_PAGE if is_new => {
                b_page[..PAGE].copy_from_slice(&a_page[..PAGE]);
                a_page.copy_from_slice(&before[0]);
            }
            ASKS_15_AFTER_1 if reply.end.number == 15 && line.len() % 2 == 1 => {
                reply.end.number = 1;
            }
            _ => {}
        }
        reply
    }

    fn first_frame(shown: Shown) -> Named {
        let mut named = Reference::first_frame(shown);
        let is_right = |end: usize| {
            let record = shown.records[end].first_chunk();
            record.is_some_and(|record| shown.pages[end].starts_with(&pages::right(record)))
        };
        match (FAULT, named.number) {
            (QUESTION_ASKS_NO_PAGE, 15) => named.number = 0,
            (QUESTION_ASKS_15_FIRST, 12) if !is_right(0) || !is_right(1) => named.number = 15,
            _ => {}
        }
        named
    }
}

#[test]
fn every_fault_of_pages_on_the_bench_is_found() {
    let failed = [
        failed_lines::<Paging<STORES_BEFORE_14>>(),
        failed::<Paging<STORES_IN_THE_OTHER_PAGE>>(),
        failed::<Paging<ASKS_15_AFTER_1>>(),
        failed::<Paging<ASKS_ONE_PAGE_ALONE>>(),
        failed_questions::<Paging<QUESTION_ASKS_NO_PAGE>>(),
        failed_questions::<Paging<QUESTION_ASKS_15_FIRST>>(),
    ];
    assert!(failed.iter().all(|&failed| failed > 0), "{failed:?}");
}
