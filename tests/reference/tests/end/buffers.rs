//! Lent buffers, the order of the questions, and refusals that leave everything untouched.

use crate::sample::{data, end, holding, open, page, page_of, Page, LAST};
use reference::block::LONGEST_BLOCK;
use reference::call::{self, restart};
use reference::frame::LONGEST_FRAME;
use reference::page::PAGE;
use reference::record::RECORD;
use reference::{Answer, Refusal, State};

type Call = for<'a> fn(&mut [u8], &mut [u8], &'a [u8], &mut [u8], &'a mut [u8]) -> Answer<'a>;

/// A request.
const REQUEST: Call =
    |record, page, request, out, up| call::request(record, page, request, out, up);
/// A frame that arrives, which is lent no second buffer.
const RECEIVE: Call = |record, page, frame, out, _| call::receive(record, page, frame, out);
/// Either of them.
const EITHER: Call = call::either;

/// The right page for a record, or a full one if the record has none.
fn right_page(record: &[u8]) -> Page {
    match shown(record) {
        (_, 0..=65_536, _) if record.len() >= RECORD => page_of(record),
        _ => page(PAGE),
    }
}

/// The number of a call on a copy of the record, with so much room for a frame and enough for a
/// block.
fn number(call: Call, record: &[u8], message: &[u8], room: usize) -> u8 {
    number_in(call, record, message, [room, LONGEST_BLOCK])
}

/// The number of a call on a copy of the record, with so much room for a frame and for a block.
fn number_in(call: Call, record: &[u8], message: &[u8], rooms: [usize; 2]) -> u8 {
    number_with(call, record, &right_page(record), message, rooms)
}

/// The number of a call on copies of the record and the page, with so much room for a frame and for
/// a block; what is refused must change and answer nothing.
fn number_with(call: Call, record: &[u8], page: &[u8], message: &[u8], rooms: [usize; 2]) -> u8 {
    let (mut after, mut page_after) = (record.to_vec(), page.to_vec());
    let [mut out, mut up] = rooms.map(|room| vec![0xee; room]);
    let answer = call(&mut after, &mut page_after, message, &mut out, &mut up);
    let number = answer.number;
    if number != 0 {
        assert_eq!((answer.notice, answer.sent, answer.block), (0, 0, None));
        assert_eq!((answer.state, answer.local, answer.remote), shown(record));
        assert_eq!((&after[..], &page_after[..]), (record, page));
        assert_eq!([out, up], rooms.map(|room| vec![0xee; room]));
    }
    number
}

/// State, L and D of a record as it stands; zeros if it is too short.
fn shown(record: &[u8]) -> (u8, u32, u32) {
    if record.len() < RECORD {
        return (0, 0, 0);
    }
    let number = |place: usize| u32::from_be_bytes(record[place..place + 4].try_into().unwrap());
    (record[0], number(1), number(5))
}

#[test]
fn requests_are_asked_in_the_order_of_the_document() {
    let unsound = [0xff; RECORD];
    let closed = end(State::Closed, 1, 0);
    let used_up = open(LAST, 0, &[b"b".as_slice(); 8]);
    let full = open(LAST - 1, 0, &[b"b".as_slice(); 8]);
    let with_room = open(LAST - 1, 0, &[b"b".as_slice(); 7]);
    let steps: [(&[u8], &[u8], usize, u8); 16] = [
        (&unsound[1..], &[], 77, 11),
        (&unsound[1..], &[], 78, 11),
        (&unsound, &[], 77, 11),
        (&unsound, &[], 78, 12),
        (&closed, &[], 78, 3),
        (&closed, &[0x01], 78, 3),
        (&closed, &[0x47], 78, 3),
        (&closed, &[0x44], 78, 4),
        (&closed, &[0x46, 0], 78, 4),
        (&closed, &[0x44, 0], 78, 5),
        (&closed, &[0x44, 1], 78, 6),
        (&closed, &[0x44, 1, 7], 78, 8),
        (&closed, &[0x46], 78, 8),
        (&used_up, &[0x44, 1, 7], 78, 9),
        (&full, &[0x44, 1, 7], 78, 10),
        (&with_room, &[0x44, 1, 7], 78, 0),
    ];
    for (record, request, room, right) in steps {
        assert_eq!(number(REQUEST, record, request, room), right);
    }
}

#[test]
fn frames_are_asked_in_the_order_of_the_document() {
    let unsound = [0xff; RECORD];
    let record = open(0, 0, &[]);
    let frame = data(0, 5, 0, b"a");
    let right_frame = data(3, 5, 0, b"a");
    let count_0 = [&frame[..13], &[0, 7, 7]].concat();
    let longer = [&frame[..], &[7]].concat();
    let steps: [(&[u8], &[u8], usize, u8); 12] = [
        (&unsound[1..], &[], 77, 11),
        (&unsound[1..], &[], 78, 11),
        (&unsound, &[], 77, 11),
        (&unsound, &[], 78, 12),
        (&record, &[], 78, 3),
        (&record, &[0x40], 78, 3),
        (&record, &frame[..13], 78, 4),
        (&record, &count_0, 78, 5),
        (&record, &longer, 78, 6),
        (&record, &frame, 78, 7),
        (&record, &right_frame, 78, 0),
        (&record, &right_frame, 79, 0),
    ];
    for (record, frame, room, right) in steps {
        assert_eq!(number(RECEIVE, record, frame, room), right);
    }
}

#[test]
fn the_call_that_knows_both_asks_the_same() {
    let closed = end(State::Closed, 1, 0);
    let crao = [1, 0, 0, 0, 7, 0, 0, 0, 0];
    assert_eq!(number(EITHER, &closed[1..], &crao, 78), 11);
    assert_eq!(number(EITHER, &closed, &crao, 77), 11);
    assert_eq!(number(EITHER, &[0xff; RECORD], &crao, 78), 12);
    assert_eq!(number(EITHER, &closed, &[], 78), 3);
    assert_eq!(number(EITHER, &closed, &[0x50], 78), 3);
    assert_eq!(number(EITHER, &closed, &crao, 78), 0);
    assert_eq!(number(EITHER, &closed, &[0x41], 78), 0);
    assert_eq!(number(EITHER, &closed, &[0x42], 78), 8);
    assert_eq!(number(EITHER, &closed, &[0x46], 78), 8);
}

#[test]
fn how_an_end_stands_is_told_after_11_12_and_15() {
    let busy = holding(open(9, 2, &[b"b".as_slice(); 8]), &[(3, b"held")]);
    let longer = [&busy[..], &[7]].concat();
    let unsound = [0xff; RECORD];
    let right = page_of(&busy);
    let wrong = page(2);
    let longer_page = [&right[..], &[7]].concat();
    let lent: [(&[u8], &[u8], u8); 12] = [
        (&[], &[], 11),
        (&busy[1..], &right, 11),
        (&unsound[1..], &right, 11),
        (&busy, &right[1..], 11),
        (&unsound, &[], 11),
        (&unsound, &right, 12),
        (&unsound, &wrong, 12),
        (&busy, &wrong, 15),
        (&busy, &page(0), 15),
        (&busy, &right, 0),
        (&longer, &right, 0),
        (&longer, &longer_page, 0),
    ];
    for (record, page, number) in lent {
        let (state, local, remote) = shown(record);
        let right = Answer {
            number,
            state,
            notice: 0,
            local,
            remote,
            sent: 0,
            block: None,
        };
        assert_eq!(call::standing(record, page), right);
    }
}

#[test]
fn a_malformed_old_frame_is_refused() {
    let calling = end(State::Calling, 5, 3);
    assert_eq!(
        number(RECEIVE, &calling, &[2, 0, 0, 0, 1, 0, 0, 0, 0], 78),
        7
    );
    assert_eq!(number(RECEIVE, &calling, &[2, 0, 0, 0, 1, 0, 0, 0], 78), 4);
}

#[test]
fn each_call_that_makes_requests_asks_for_a_second_buffer_of_64_bytes() {
    let closed = end(State::Closed, 1, 0);
    let held = holding(open(0, 0, &[]), &[(0, b"held")]);
    let unsound = [0xff; RECORD];
    let crao = [1, 0, 0, 0, 7, 0, 0, 0, 0];
    for call in [REQUEST, EITHER] {
        for room in [0, 1, 4, 63] {
            let asked = |record: &[u8], message: &[u8]| {
                assert_eq!(number_in(call, record, message, [78, room]), 11);
            };
            asked(&held, &[0x46]);
            asked(&closed, &[0x45]);
            asked(&closed, &[0x46]);
            asked(&closed, &crao);
            asked(&closed, &[]);
            asked(&unsound, &[0x46]);
            asked(&unsound[1..], &[0x46]);
        }
        for room in [64, 65, 200] {
            assert_eq!(number_in(call, &held, &[0x46], [78, room]), 0);
            assert_eq!(number_in(call, &closed, &[0x45], [78, room]), 0);
            assert_eq!(number_in(call, &unsound, &[0x45], [78, room]), 12);
            assert_eq!(number_in(call, &held, &[0x46], [77, room]), 11);
        }
    }
    assert_eq!(number_in(RECEIVE, &closed, &crao, [78, 0]), 0);
    assert_eq!(number_in(EITHER, &closed, &crao, [78, 64]), 0);
}

#[test]
fn the_block_handed_up_is_part_of_the_received_frame() {
    let mut record = open(0, 0, &[]);
    let frame = data(3, 5, 0, b"block");
    let page = page_of(&record);
    let answer = call::receive(&mut record, &page, &frame, &mut [0; LONGEST_FRAME]);
    let block = answer.block.unwrap().bytes();
    assert_eq!(block.as_ptr_range(), frame[14..].as_ptr_range());
}

#[test]
fn a_collected_block_is_a_copy_at_the_start_of_the_second_buffer() {
    for length in [1, 5, 64] {
        let mut record = holding(open(0, 0, &[]), &[(0, &vec![7; length])]);
        let mut up = [0xee; LONGEST_BLOCK + 2];
        let place = up[..length].as_ptr_range();
        let (mut page, mut out) = (page_of(&record), [0; LONGEST_FRAME]);
        let answer = call::request(&mut record, &mut page, &[0x46], &mut out, &mut up);
        let block = answer.block.unwrap().bytes();
        assert_eq!(block.as_ptr_range(), place);
        let (block, rest) = up.split_at(length);
        assert!(block.iter().all(|&byte| byte == 7));
        assert!(rest.iter().all(|&byte| byte == 0xee));
    }
}

#[test]
fn a_page_needs_4096_bytes_and_is_asked_after_12_and_before_3() {
    let closed = end(State::Closed, 1, 0);
    let unsound = [0xff; RECORD];
    let crao = [1, 0, 0, 0, 7, 0, 0, 0, 0];
    let (right, wrong) = (page(1), page(2));
    let longer = [&right[..], &[0x33; 2]].concat();
    for (call, message) in [
        (REQUEST, &[0x40][..]),
        (RECEIVE, &crao),
        (EITHER, &[0x41]),
        (EITHER, &crao),
    ] {
        let asked = |record: &[u8], page: &[u8], message: &[u8]| {
            number_with(call, record, page, message, [78, 64])
        };
        for message in [message, &[], &[0xff]] {
            assert_eq!(asked(&closed, &[], message), 11);
            assert_eq!(asked(&closed, &right[1..], message), 11);
            assert_eq!(asked(&closed, &right[..4095], message), 11);
            assert_eq!(asked(&unsound, &wrong[1..], message), 11);
            assert_eq!(asked(&unsound, &wrong, message), 12);
            assert_eq!(asked(&closed, &wrong, message), 15);
        }
        assert_eq!(asked(&closed, &right, &[]), 3);
        assert_eq!(asked(&closed, &right, message), 0);
        assert_eq!(asked(&closed, &longer, message), 0);
    }
}

#[test]
fn a_restart_needs_1058_and_4096_bytes_and_writes_no_more() {
    let page = page(3);
    let longer = [&page[..], &[0x33; 2]].concat();
    let mut record = [7; 1060];
    for (length, page) in [(1057, &page[..]), (0, &page), (1060, &page[..4095])] {
        assert_eq!(restart(&mut record[..length], page), Err(Refusal::Buffer));
        assert_eq!(record, [7; 1060]);
    }
    for page in [&page[..], &longer] {
        assert_eq!(restart(&mut record, page), Ok(()));
        assert_eq!(record[..1058], end(State::Closed, 48, 0));
        assert_eq!(record[1058..], [7; 2]);
    }
}
