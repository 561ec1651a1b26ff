//! The page of an end: asked at each call, written only before a new number is used.

use crate::sample::{
    data, end, open, page, page_of, request, signal, Page, Record, CLOSE, CONNECT, FRESH,
    LAST_LOCAL, LISTEN, TIMER,
};
use reference::block::LONGEST_BLOCK;
use reference::call;
use reference::frame::Signal::Crao;
use reference::frame::LONGEST_FRAME;
use reference::record::RECORD;
use reference::State::{Calling, Closed, Listening};

/// A call on a record and a page; gives its number.
type Call = fn(&mut [u8], &mut [u8]) -> u8;

/// Each call that is lent a page.
const CALLS: [Call; 5] = [
    |record, page| timed(record, page),
    |record, page| called(record, page),
    |record, page| call::standing(record, page).number,
    |record, page| {
        let (out, up) = (&mut [0; LONGEST_FRAME], &mut [0; LONGEST_BLOCK]);
        call::either(record, page, &signal(Crao, 7, 0), out, up).number
    },
    |record, page| asked(record, page, CONNECT),
];

/// The number of a request.
fn asked(record: &mut [u8], page: &mut [u8], request: &[u8]) -> u8 {
    let (out, up) = (&mut [0; LONGEST_FRAME], &mut [0; LONGEST_BLOCK]);
    call::request(record, page, request, out, up).number
}

fn timed(record: &mut [u8], page: &mut [u8]) -> u8 {
    asked(record, page, TIMER)
}

/// The number of a CRAO that arrives.
fn called(record: &mut [u8], page: &mut [u8]) -> u8 {
    call::receive(record, page, &signal(Crao, 7, 0), &mut [0; LONGEST_FRAME]).number
}

/// Each call refuses this page beside this record by 15, and leaves both.
fn assert_refused(record: &Record, page: &Page) {
    for call in CALLS {
        let (mut after, mut page_after) = (*record, *page);
        assert_eq!(call(&mut after, &mut page_after), 15);
        assert_eq!((&after, &page_after), (record, page));
    }
}

/// Each call takes this page beside this record.
fn assert_taken(record: &Record, page: &Page) {
    for call in CALLS {
        assert_ne!(call(&mut record.clone(), &mut page.clone()), 15);
    }
}

/// Values of L at the edges of their page bytes.
const LOCALS: [u32; 12] = [0, 1, 15, 16, 17, 31, 32, 33, 65_519, 65_520, 65_521, 65_535];

#[test]
fn the_count_of_00_is_l_divided_by_16_and_rounded_up() {
    for local in LOCALS.into_iter().chain([LAST_LOCAL]) {
        let record = end(Closed, local, 0);
        let right = local.div_ceil(16) as usize;
        assert_taken(&record, &page(right));
        for wrong in [right.wrapping_sub(1), right + 1, 0, 4096] {
            if wrong != right && wrong <= 4096 {
                assert_refused(&record, &page(wrong));
            }
        }
    }
}

#[test]
fn each_byte_of_a_page_is_asked() {
    for record in [FRESH, open(0, 0, &[]), end(Closed, 40_000, 0)] {
        let right = page_of(&record);
        for place in 0..4096 {
            for byte in [0x00, 0x01, 0x80, 0xfe, 0xff] {
                let mut page = right;
                page[place] = byte;
                if page != right {
                    assert_eq!(timed(&mut record.clone(), &mut page), 15, "{place} {byte}");
                }
            }
        }
    }
}

#[test]
fn a_hole_a_wrong_byte_and_the_other_order_are_refused() {
    let record = end(Listening, 80, 0);
    let right = page(5);
    let damaged = |damage: fn(&mut Page)| {
        let mut page = right;
        damage(&mut page);
        page
    };
    assert_taken(&record, &right);
    for page in [
        damaged(|page| page[2] = 0xff),
        damaged(|page| page[6] = 0x00),
        damaged(|page| page.swap(4, 5)),
        damaged(|page| page.swap(0, 4095)),
        damaged(|page| page[0] = 0x01),
        damaged(|page| page[4095] = 0x7f),
        damaged(|page| page.reverse()),
        [0x55; 4096],
    ] {
        assert_refused(&record, &page);
    }
}

#[test]
fn an_l_too_high_for_a_page_is_15_and_not_12() {
    for local in [65_537, 65_552, 1 << 17, 1 << 31, u32::MAX - 1, u32::MAX] {
        for reserved in [0, 1, 4095, 4096] {
            assert_refused(&end(Closed, local, 0), &page(reserved));
        }
    }
    let mut unsound = end(Closed, u32::MAX, 0);
    unsound[RECORD - 1] = 1;
    assert_eq!(timed(&mut unsound, &mut page(4096)), 12);
}

#[test]
fn what_follows_the_page_in_its_buffer_is_not_asked() {
    let mut longer = [&page(1)[..], &[0x00, 0x33]].concat();
    let record = end(Closed, 9, 0);
    for call in CALLS {
        assert_eq!(call(&mut record.clone(), &mut longer), 0);
    }
    assert_eq!(longer, [&page(1)[..], &[0x00, 0x33]].concat());
}

#[test]
fn a_byte_is_stored_only_before_the_first_of_its_numbers() {
    for (kind, state) in [(CONNECT, Calling), (LISTEN, Listening)] {
        for local in LOCALS {
            let mut record = end(Closed, local, 0);
            let before = page_of(&record);
            let mut after = before;
            assert_eq!(asked(&mut record, &mut after, kind), 0);
            assert_eq!(record, end(state, local + 1, 0));
            let mut right = before;
            if local % 16 == 0 {
                right[local as usize / 16] = 0;
            }
            assert_eq!(after, right, "L = {local}");
        }
    }
}

#[test]
fn no_other_call_stores_in_the_page() {
    for local in [16, 32, 65_520] {
        let mut record = end(Calling, local, 3);
        let before = page_of(&record);
        let mut page = before;
        for request in [CONNECT, LISTEN, TIMER, CLOSE, TIMER] {
            asked(&mut record, &mut page, request);
            called(&mut record, &mut page);
            assert_eq!(page, before);
        }
    }
    let mut record = open(0, 0, &[]);
    let before = page_of(&record);
    let frame = data(3, 5, 0, b"block");
    let answer = call::receive(&mut record, &before, &frame, &mut [0; LONGEST_FRAME]);
    assert_eq!((answer.number, answer.notice), (0, 5));
}

#[test]
fn a_refused_call_stores_nothing() {
    let full = page(4096);
    for kind in [CONNECT, LISTEN] {
        let mut record = end(Closed, LAST_LOCAL, 0);
        let mut page = full;
        assert_eq!(asked(&mut record, &mut page, kind), 9);
        assert_eq!((record, page), (end(Closed, LAST_LOCAL, 0), full));
        let mut record = end(Listening, 16, 0);
        let mut page = page_of(&record);
        assert_eq!(asked(&mut record, &mut page, kind), 8);
        assert_eq!(page, page_of(&record));
        let mut page = page_of(&FRESH);
        assert_eq!(asked(&mut FRESH.clone(), &mut page, &[kind[0], 0]), 4);
        assert_eq!(page, page_of(&FRESH));
    }
}

#[test]
fn a_page_is_used_up_after_65536_calls() {
    let mut record = FRESH;
    let mut page = page_of(&FRESH);
    let mut stores = 0;
    for local in 1..=LAST_LOCAL {
        let before = page;
        assert_eq!(asked(&mut record, &mut page, CONNECT), 0);
        assert_eq!(record[1..5], local.to_be_bytes());
        stores += usize::from(page != before);
        assert_eq!(asked(&mut record, &mut page, CLOSE), 0);
    }
    assert_eq!(stores, 4096);
    assert_eq!(page, [0; 4096]);
    assert_eq!(request(record, CONNECT).number, 9);
    assert_eq!(request(record, LISTEN).number, 9);
    assert_eq!(request(record, TIMER).number, 0);
}
