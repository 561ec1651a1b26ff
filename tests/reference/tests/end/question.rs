//! The question for the first frame whose delivery would be accepted and change the receiver's
//! record.

use crate::bench::Lent;
use crate::sample::{ack, data, end, holding, open, signal, FRESH};
use reference::bench::book::PLACES;
use reference::bench::{self, Side};
use reference::frame::Signal::{Crack, Crao, Crpo, Dr, Rej};
use reference::record::RECORD;
use reference::Refusal;
use reference::State::{Answering, Calling, Closed, Listening};
use Side::{A, B};

/// All frames whose delivery would change a record; the first of them is named.
fn changing(lent: &Lent) -> Result<Vec<usize>, Refusal> {
    let records = lent.records.each_ref().map(|record| &record[..]);
    let pages = lent.pages.each_ref().map(|page| &page[..]);
    let changing = bench::changing(records, pages, &lent.book, lent.count);
    let named = bench::first_frame(records, pages, &lent.book, lent.count);
    let first = changing.as_ref().map(|all| all.first().copied());
    assert_eq!(named, first.map_err(|&refusal| refusal));
    changing
}

/// The frame that is named.
fn named(lent: &Lent) -> Option<usize> {
    changing(lent).unwrap().first().copied()
}

/// Delivers what is named until none is. Gives what was delivered.
fn walk(lent: &mut Lent) -> Vec<usize> {
    let mut delivered = Vec::new();
    while let Some(frame) = named(lent) {
        let [high, low] = (frame as u16).to_be_bytes();
        assert_eq!(lent.line(&[0x52, high, low]).number, 0);
        delivered.push(frame);
    }
    delivered
}

#[test]
fn an_empty_book_has_none() {
    assert_eq!(changing(&Lent::new([FRESH; 2], &[])), Ok(vec![]));
    let listening = Lent::new([end(Listening, 1, 0); 2], &[]);
    assert_eq!(changing(&listening), Ok(vec![]));
}

#[test]
fn what_only_sends_again_or_is_passed_over_is_left_out() {
    let frames = [
        (A, signal(Crao, 1, 0)),
        (A, signal(Dr, 1, 1)),
        (B, signal(Crpo, 4, 9)),
        (A, signal(Rej, 1, 1)),
    ];
    assert_eq!(changing(&Lent::new([FRESH; 2], &frames)), Ok(vec![]));
    let listening = Lent::new([FRESH, end(Listening, 1, 0)], &frames);
    assert_eq!(changing(&listening), Ok(vec![0]));
    let calling = Lent::new([FRESH, end(Calling, 1, 0)], &frames);
    assert_eq!(changing(&calling), Ok(vec![0, 1, 3]));
}

#[test]
fn all_count_for_their_receivers() {
    let frames = [
        (A, data(3, 5, 0, b"a")),
        (A, data(3, 5, 1, b"b")),
        (B, data(3, 5, 0, b"c")),
        (B, ack(3, 5, 1)),
        (A, ack(3, 5, 1)),
        (B, ack(3, 5, 2)),
        (A, data(3, 5, 0, b"a")),
    ];
    let records = [open(1, 0, &[b"a"]), open(1, 0, &[])];
    let changed = changing(&Lent::new(records, &frames));
    assert_eq!(changed, Ok(vec![0, 1, 2, 3, 6]));
}

#[test]
fn a_block_that_would_be_held_counts_unless_a_copy_is_held() {
    let frames: Vec<_> = (3..15).map(|n| (A, data(3, 5, n, b"early"))).collect();
    let numbered = |numbers: &[usize]| Ok(numbers.iter().map(|n| n - 3).collect());
    let none = Lent::new([FRESH, open(0, 5, &[])], &frames);
    assert_eq!(changing(&none), numbered(&[5, 6, 7, 8, 9, 10, 11, 12]));
    assert_eq!(changing(&none.filled(512)), Ok(vec![]));
    let held: [(usize, &[u8]); 3] = [(0, b"five"), (2, b"early"), (7, b"other")];
    let some = Lent::new([FRESH, holding(open(0, 5, &[]), &held)], &frames);
    assert_eq!(changing(&some), numbered(&[5, 6, 8, 9, 10, 11]));
}

#[test]
fn the_lowest_is_named() {
    let refusal = (A, signal(Rej, 3, 1));
    let [first, second, third] = [(A, 3), (B, 7), (A, 4)];
    let call = |(side, s)| (side, signal(Crao, s, 0));
    let frames = [refusal, call(first), call(second), call(third)];
    let listening = end(Listening, 1, 0);
    for (records, lowest) in [
        ([FRESH, FRESH], None),
        ([listening, FRESH], Some(2)),
        ([FRESH, listening], Some(1)),
        ([listening, listening], Some(1)),
        ([listening, end(Calling, 1, 0)], Some(0)),
        ([FRESH, end(Answering, 1, 3)], Some(0)),
        ([listening, end(Answering, 2, 3)], Some(2)),
        ([FRESH, end(Answering, 2, 3)], Some(3)),
    ] {
        assert_eq!(named(&Lent::new(records, &frames)), lowest);
    }
}

#[test]
fn a_walk_delivers_the_lowest_each_time_until_none_changes_a_record() {
    let frames = [
        (A, data(3, 5, 1, b"b")),
        (A, data(3, 5, 0, b"a")),
        (B, ack(3, 5, 1)),
        (A, signal(Dr, 3, 5)),
    ];
    let records = [open(1, 0, &[b"a"]), open(0, 0, &[])];
    let mut lent = Lent::new(records, &frames);
    // Block 1 is held the first time, and handed up the second.
    assert_eq!(walk(&mut lent), [0, 1, 0, 2, 3]);
    let mut full = Lent::new(records, &frames).filled(512);
    assert_eq!(walk(&mut full), [2]);
}

#[test]
fn a_walk_of_a_call_that_was_hung_up_ends_with_the_book() {
    let mut lent = Lent::new([FRESH; 2], &[]);
    for line in [&[0x51, 0x41][..], &[0x50, 0x40], &[0x50, 0x43]] {
        assert_eq!(lent.line(line).number, 0);
    }
    assert_eq!(lent.line(&[0x52, 0, 0]).state, Answering as u8);
    assert_eq!(lent.line(&[0x52, 0, 1]).state, Closed as u8);
    assert_eq!(lent.count, 3);
    let delivered = walk(&mut lent);
    let answers = PLACES - 3;
    let (first, in_turns) = delivered.split_first().unwrap();
    assert_eq!((*first, in_turns), (2, &[0, 2].repeat(answers)[..]));
    assert!(delivered.len() <= 3 * answers + 18);
    assert_eq!(lent.count, PLACES);
    assert_eq!(lent.records[1][..], end(Listening, 1, 0));
    assert_eq!(lent.asked(&[0x52, 0, 0]), (14, B));
}

#[test]
fn a_full_book_leaves_what_sends_nothing() {
    let frames = [(A, signal(Crao, 3, 5)), (A, signal(Crack, 3, 5))];
    let lent = Lent::new([FRESH, end(Calling, 5, 0)], &frames);
    assert_eq!(changing(&lent), Ok(vec![0, 1]));
    let fuller = |count| {
        let mut lent = lent.clone().filled(count);
        lent.book[2 * 80..].fill(0xff);
        lent
    };
    assert_eq!(changing(&fuller(511)), Ok(vec![0, 1]));
    assert_eq!(changing(&fuller(512)), Ok(vec![1]));
}

#[test]
fn frames_that_the_book_does_not_hold_or_that_do_not_read_are_left_out() {
    let frames = vec![(A, signal(Crao, 3, 0)); 6];
    let mut lent = Lent::new([FRESH, end(Listening, 1, 0)], &frames);
    lent.book[0] = 2;
    lent.book[81] = 8;
    lent.book[2 * 80 + 1] = 10;
    lent.book[3 * 80 + 2] = 0x40;
    lent.book[4 * 80 + 79] = 1;
    assert_eq!(changing(&lent), Ok(vec![4, 5]));
    lent.count = 5;
    assert_eq!(changing(&lent), Ok(vec![4]));
}

#[test]
fn buffers_soundness_and_pages_come_first() {
    let lent = Lent::new([[0xff; RECORD]; 2], &[]);
    assert_eq!(changing(&lent), Err(Refusal::Unsound));
    for short in 0..5 {
        let mut lent = lent.clone();
        lent.buffers()[short].pop();
        lent.count = 513;
        assert_eq!(changing(&lent), Err(Refusal::Buffer));
    }
    for wrong in [0, 1] {
        let mut lent = Lent::new([FRESH; 2], &[]);
        lent.pages[wrong][0] = 0;
        assert_eq!(changing(&lent), Err(Refusal::Page));
        lent.count = 513;
        assert_eq!(changing(&lent), Err(Refusal::Unsound));
    }
    for count in [513, 65_536, usize::MAX] {
        let mut lent = Lent::new([FRESH; 2], &[]);
        lent.count = count;
        assert_eq!(changing(&lent), Err(Refusal::Unsound));
    }
}
