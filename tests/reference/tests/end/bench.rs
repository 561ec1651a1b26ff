//! Bench lines on lent buffers: the order of the questions, and every byte written.

use crate::sample::{
    ack, data, end, holding, open, page_of, send, signal, Held, Page, Record, FRESH, LAST,
};
use reference::bench::book::{place, Place, BOOK, HEAD, PLACE, PLACES};
use reference::bench::{self, Side};
use reference::block::LONGEST_BLOCK;
use reference::frame::Signal::{Crack, Crao, Crpo, Dr, Drack, Rej, Reset};
use reference::frame::LONGEST_FRAME;
use reference::line;
use reference::page::PAGE;
use reference::record::RECORD;
use reference::State::{Answering, Calling, Closed, Closing, Listening};

/// Fills what a line may not write.
const UNTOUCHED: u8 = 0xee;

/// What is lent to a bench line.
#[derive(Clone, Debug, PartialEq)]
pub struct Lent {
    pub records: [Vec<u8>; 2],
    pub pages: [Vec<u8>; 2],
    pub book: Vec<u8>,
    pub count: usize,
    pub out: Vec<u8>,
    pub up: Vec<u8>,
}

/// What a line was answered.
#[derive(Debug, PartialEq)]
pub struct Told {
    pub number: u8,
    pub side: Side,
    pub state: u8,
    pub notice: u8,
    pub local: u32,
    pub remote: u32,
    pub block: Vec<u8>,
    pub sent: usize,
}

impl Lent {
    /// These records and frames, in buffers just large enough.
    pub fn new(records: [Record; 2], frames: &[(Side, Vec<u8>)]) -> Self {
        let places: Vec<Place> = frames.iter().map(|(side, f)| place(*side, f)).collect();
        let mut book = places.as_flattened().to_vec();
        book.resize(BOOK, UNTOUCHED);
        Self {
            pages: records.map(|record| right_page(&record).to_vec()),
            records: records.map(|record| record.to_vec()),
            book,
            count: frames.len(),
            out: vec![UNTOUCHED; LONGEST_FRAME],
            up: vec![UNTOUCHED; LONGEST_BLOCK],
        }
    }

    /// All buffers: the records, the pages, the book, those for a frame and for a block.
    pub fn buffers(&mut self) -> [&mut Vec<u8>; 7] {
        let [a, b] = &mut self.records;
        let [a_page, b_page] = &mut self.pages;
        let rest = [&mut self.book, &mut self.out, &mut self.up];
        let [book, out, up] = rest;
        [a, b, a_page, b_page, book, out, up]
    }

    /// The same with so many bytes more at the end of each buffer.
    pub fn longer(mut self, by: usize) -> Self {
        for buffer in self.buffers() {
            buffer.resize(buffer.len() + by, UNTOUCHED);
        }
        self
    }

    /// The same with a book of this count whose further places hold the first call of A.
    pub fn filled(mut self, count: usize) -> Self {
        let crao = place(Side::A, &signal(Crao, 1, 0));
        let (places, _) = self.book.as_chunks_mut::<PLACE>();
        places[self.count..count].fill(crao);
        self.count = count;
        self
    }

    /// Takes the line, on these buffers.
    fn answer(&mut self, line: &[u8]) -> bench::Answer<'_> {
        let count = self.count;
        let [a, b, a_page, b_page, book, out, up] = self.buffers();
        bench::line([a, b], [a_page, b_page], book, count, line, out, up)
    }

    /// Takes a line of these bytes.
    pub fn line(&mut self, bytes: &[u8]) -> Told {
        self.text(&line::write(bytes))
    }

    /// Takes the line; a refusal must leave everything and tell nothing.
    fn text(&mut self, line: &[u8]) -> Told {
        let before = self.clone();
        let answer = self.answer(line);
        let (side, end, count) = (answer.side, answer.end, answer.count);
        let told = Told {
            number: end.number,
            side,
            state: end.state,
            notice: end.notice,
            local: end.local,
            remote: end.remote,
            block: end.block.map_or(Vec::new(), |block| block.bytes().to_vec()),
            sent: end.sent,
        };
        self.count = count;
        if told.number != 0 {
            assert_eq!(*self, before);
            assert_eq!((told.notice, told.sent, told.block.len()), (0, 0, 0));
        }
        let record = &self.records[side.index()];
        if record.len() >= RECORD {
            assert_eq!(record[0], told.state);
            assert_eq!(record[1..5], told.local.to_be_bytes());
            assert_eq!(record[5..9], told.remote.to_be_bytes());
        }
        told
    }

    /// The number of a line of these bytes, and the end that is told of.
    pub fn asked(&self, bytes: &[u8]) -> (u8, Side) {
        self.asked_text(&line::write(bytes))
    }

    /// The number of a line, and the end that is told of.
    pub fn asked_text(&self, line: &[u8]) -> (u8, Side) {
        let told = self.clone().text(line);
        (told.number, told.side)
    }
}

/// The right page for a record, or a new one if its L is too high for a page.
fn right_page(record: &Record) -> Page {
    match record[1..5] {
        [0, 0, _, _] | [0, 1, 0, 0] => page_of(record),
        _ => [0xff; PAGE],
    }
}

pub const UNSOUND: Record = [0xff; RECORD];
use Side::{A, B};

#[test]
fn buffers_are_asked_before_soundness_and_soundness_before_the_line() {
    let wrong = Lent::new([UNSOUND, UNSOUND], &[]).filled(1);
    for line in [&b""[..], &[0xff], &[0x51, 0x40], &[0x52, 0, 0]] {
        for short in 0..7 {
            let mut lent = wrong.clone();
            lent.buffers()[short].pop();
            assert_eq!(lent.asked(line), (11, A));
            lent.count = 513;
            assert_eq!(lent.asked(line), (11, A));
        }
        assert_eq!(wrong.asked(line), (12, A));
        for records in [[UNSOUND, FRESH], [FRESH, UNSOUND]] {
            assert_eq!(Lent::new(records, &[]).asked(line), (12, A));
        }
        for count in [513, 514, 65_536, usize::MAX] {
            let mut lent = Lent::new([FRESH; 2], &[]);
            lent.count = count;
            assert_eq!(lent.asked(line), (12, A));
            assert_eq!(lent.asked_text(b"zzz"), (12, A));
        }
    }
}

#[test]
fn text_is_asked_1_and_2_after_12() {
    let lent = Lent::new([FRESH; 2], &[]);
    for (text, number) in [("", 1), ("5", 1), ("515", 1), ("zzz", 1), ("51zz", 2)] {
        assert_eq!(lent.asked_text(text.as_bytes()), (number, A));
        let unsound = Lent::new([FRESH, UNSOUND], &[]);
        assert_eq!(unsound.asked_text(text.as_bytes()), (12, A));
    }
}

#[test]
fn requests_are_asked_3_to_14() {
    let eight = [b"b".as_slice(); 8];
    let closed = Lent::new([FRESH; 2], &[]).filled(512);
    let used_up = Lent::new([open(LAST, 0, &eight); 2], &[]).filled(512);
    let waiting = Lent::new([open(LAST - 1, 0, &eight); 2], &[]).filled(512);
    let with_room = Lent::new([open(LAST - 1, 0, &eight[1..]); 2], &[]);
    let full = with_room.clone().filled(512);
    let free = with_room.filled(511);
    let steps: [(&Lent, &[u8], u8); 19] = [
        (&closed, &[], 3),
        (&closed, &[0x01, 0, 0, 0, 1, 0, 0, 0, 1], 3),
        (&closed, &[0x47], 3),
        (&closed, &[0x50], 3),
        (&closed, &[0x52], 3),
        (&closed, &[0x40, 0], 4),
        (&closed, &[0x46, 0], 4),
        (&closed, &[0x44], 4),
        (&closed, &[0x44, 0], 5),
        (&closed, &[0x44, 65], 5),
        (&closed, &[0x44, 1], 6),
        (&closed, &[0x44, 1, 7], 8),
        (&closed, &[0x46], 8),
        (&used_up, &[0x44, 1, 7], 9),
        (&waiting, &[0x44, 1, 7], 10),
        (&full, &[0x44, 1, 7], 14),
        (&free, &[0x44, 1, 7], 0),
        (&full, &[0x46], 0),
        (&closed, &[0x40], 14),
    ];
    for (lent, request, number) in steps {
        assert_eq!(lent.asked(&[&[0x50], request].concat()), (number, A));
        assert_eq!(lent.asked(&[&[0x51], request].concat()), (number, B));
    }
}

#[test]
fn a_line_without_an_end_is_not_known() {
    let lent = Lent::new([FRESH; 2], &[]);
    for line in [&[0x40][..], &[0x44, 0], &[0x54], &[0x4f, 0x40]] {
        assert_eq!(lent.asked(line), (3, A));
    }
    assert_eq!(lent.asked(&signal(Crao, 1, 0)), (3, A));
}

#[test]
fn deliveries_are_asked_4_and_13() {
    let lent = Lent::new([FRESH; 2], &[]).filled(2);
    for line in [&[0x52][..], &[0x52, 0], &[0x52, 0, 0, 0], &[0x52; 78]] {
        assert_eq!(lent.asked(line), (4, A));
    }
    for number in [2_u16, 3, 511, 512, 65_535] {
        let line = [&[0x52][..], &number.to_be_bytes()].concat();
        assert_eq!(lent.asked(&line), (13, A));
    }
    assert_eq!(lent.asked(&[0x52, 0, 0]), (0, B));
    assert_eq!(lent.asked(&[0x52, 0, 1]), (0, B));
    for (byte, wrong) in [(0, 2), (0, 255), (1, 0), (1, 8), (1, 79), (1, 255)] {
        let mut lent = lent.clone();
        lent.book[PLACE + byte] = wrong;
        assert_eq!(lent.asked(&[0x52, 0, 1]), (13, A));
    }
}

#[test]
fn frames_found_are_asked_3_to_7_and_14() {
    let frame = data(0, 5, 0, b"a");
    let right = data(3, 5, 0, b"a");
    let count_0 = [&frame[..13], &[0, 7, 7]].concat();
    let longer = [&frame[..], &[7]].concat();
    for (frame, number) in [
        (&vec![0x40; 9], 3),
        (&frame[..13].to_vec(), 4),
        (&count_0, 5),
        (&longer, 6),
        (&frame, 7),
        (&right, 0),
    ] {
        for (sender, receiver) in [(A, B), (B, A)] {
            let records = [open(0, 0, &[]); 2];
            let lent = Lent::new(records, &[(sender, frame.clone())]);
            assert_eq!(lent.asked(&[0x52, 0, 0]), (number, receiver));
            assert_eq!(
                lent.clone().filled(511).asked(&[0x52, 0, 0]),
                (number, receiver)
            );
            let full = if number == 0 { 14 } else { number };
            assert_eq!(lent.filled(512).asked(&[0x52, 0, 0]), (full, receiver));
        }
    }
}

#[test]
fn a_full_book_stops_only_what_sends() {
    let requests = [
        (FRESH, 0x41, 0),
        (end(Listening, 1, 0), 0x42, 0),
        (end(Calling, 1, 0), 0x43, 0),
        (end(Calling, 5, 3), 0x43, 14),
        (open(1, 0, &[]), 0x43, 14),
        (FRESH, 0x45, 0),
        (end(Listening, 1, 0), 0x45, 0),
        (open(1, 0, &[]), 0x45, 0),
        (open(1, 0, &[]), 0x46, 0),
        (holding(open(1, 0, &[]), &[(1, b"early")]), 0x46, 0),
    ];
    for (record, request, number) in requests {
        let lent = Lent::new([record; 2], &[]).filled(512);
        assert_eq!(lent.asked(&[0x50, request]), (number, A));
        assert_eq!(lent.asked(&[0x51, request]), (number, B));
    }
    let frames = [
        (end(Calling, 5, 3), signal(Crack, 3, 5), 0),
        (end(Calling, 5, 3), signal(Crpo, 3, 5), 14),
        (end(Calling, 5, 3), signal(Rej, 3, 5), 0),
        (end(Calling, 5, 3), signal(Rej, 2, 5), 0),
        (end(Answering, 5, 3), signal(Reset, 3, 5), 0),
        (end(Answering, 5, 3), signal(Crao, 2, 5), 0),
        (end(Answering, 5, 3), signal(Crao, 3, 5), 14),
        (end(Closing, 5, 3), signal(Drack, 3, 5), 0),
        (end(Closing, 5, 3), signal(Crao, 4, 0), 0),
        (end(Closing, 5, 3), signal(Dr, 3, 5), 14),
        (open(1, 0, &[b"a"]), ack(3, 5, 1), 0),
        (open(1, 0, &[b"a"]), data(3, 5, 9, b"b"), 14),
        (end(Closed, 5, 0), signal(Dr, 3, 5), 14),
    ];
    for (record, frame, number) in frames {
        let lent = Lent::new([record; 2], &[(A, frame)]).filled(512);
        assert_eq!(lent.asked(&[0x52, 0, 0]), (number, B));
    }
}

#[test]
fn a_frame_sent_is_written_to_the_buffer_and_the_next_place() {
    let before = Lent::new([FRESH, end(Listening, 4, 0)], &[(A, signal(Crao, 7, 0))]).longer(3);
    let mut lent = before.clone();
    let told = lent.line(&[0x52, 0, 0]);
    let crpo = signal(Crpo, 4, 7);
    assert_eq!((told.number, told.side, told.sent), (0, B, 9));
    assert_eq!((told.state, told.local, told.remote), (3, 4, 7));
    let mut right = before;
    right.count = 2;
    right.records[1][..RECORD].copy_from_slice(&end(Answering, 4, 7));
    right.out[..9].copy_from_slice(&crpo);
    right.book[PLACE..2 * PLACE].copy_from_slice(&place(B, &crpo));
    assert_eq!(lent, right);
}

#[test]
fn the_last_place_is_used_and_no_byte_after_it() {
    let before = Lent::new([FRESH; 2], &[]).filled(511).longer(5);
    let mut lent = before.clone();
    let told = lent.line(&[0x51, 0x40]);
    assert_eq!((told.number, told.side, lent.count), (0, B, 512));
    let crao = signal(Crao, 1, 0);
    let mut right = before;
    right.count = 512;
    right.records[1][..RECORD].copy_from_slice(&end(Calling, 1, 0));
    right.pages[1][0] = 0;
    right.out[..9].copy_from_slice(&crao);
    right.book[511 * PLACE..BOOK].copy_from_slice(&place(B, &crao));
    assert_eq!(lent, right);
    assert_eq!(lent.line(&[0x51, 0x45]).number, 14);
    assert_eq!(lent.count, PLACES);
}

#[test]
fn what_sends_nothing_writes_the_record_alone() {
    let before = Lent::new([FRESH; 2], &[]).filled(7).longer(1);
    let mut lent = before.clone();
    assert_eq!(lent.line(&[0x50, 0x41]).number, 0);
    let mut right = before;
    right.records[0][..RECORD].copy_from_slice(&end(Listening, 1, 0));
    right.pages[0][0] = 0;
    assert_eq!(lent, right);
}

#[test]
fn a_send_stopped_by_14_leaves_the_waiting_blocks() {
    let before = Lent::new([open(1, 0, &[b"a"]); 2], &[]).filled(512);
    let mut lent = before.clone();
    let line = [&[0x51][..], &send(b"block")].concat();
    assert_eq!(lent.line(&line).number, 14);
    assert_eq!(lent, before);
}

#[test]
fn the_block_handed_up_is_part_of_the_book() {
    let frames = [(A, signal(Crao, 1, 0)), (A, data(3, 5, 0, b"block"))];
    let mut lent = Lent::new([FRESH, open(0, 0, &[])], &frames);
    let book = lent.book.as_ptr_range();
    let answer = lent.answer(b"520001");
    let block = answer.end.block.unwrap().bytes();
    assert_eq!(block, b"block");
    let place = block.as_ptr().addr() - book.start.addr();
    assert_eq!(place, PLACE + HEAD + 14);
    assert_eq!((answer.end.notice, answer.count), (5, 3));
}

#[test]
fn a_collected_block_is_copied_to_the_second_buffer() {
    let held: Held = &[(0, b"block"), (3, b"early")];
    let before = Lent::new([FRESH, holding(open(0, 6, &[]), held)], &[]).longer(2);
    let mut lent = before.clone();
    let told = lent.line(&[0x51, 0x46]);
    assert_eq!((told.number, told.side, told.notice), (0, B, 5));
    assert_eq!(
        (&told.block[..], told.sent, lent.count),
        (&b"block"[..], 13, 1)
    );
    let acknowledgement = ack(5, 3, 7);
    let mut right = before;
    right.count = 1;
    right.records[1][..RECORD].copy_from_slice(&holding(open(0, 7, &[]), &[(2, b"early")]));
    right.out[..13].copy_from_slice(&acknowledgement);
    right.up[..5].copy_from_slice(b"block");
    right.book[..PLACE].copy_from_slice(&place(B, &acknowledgement));
    assert_eq!(lent, right);
}

#[test]
fn a_collected_block_stands_at_the_start_of_the_second_buffer() {
    let held = holding(open(0, 6, &[]), &[(0, &[7; 64])]);
    let mut lent = Lent::new([held, FRESH], &[]).longer(2);
    let start = lent.up.as_ptr();
    let answer = lent.answer(b"5046");
    let block = answer.end.block.unwrap().bytes();
    assert_eq!((block.as_ptr(), block), (start, &[7; 64][..]));
}

#[test]
fn a_full_book_stops_a_collect_only_if_block_e_is_held() {
    let held: Held = &[(0, b"block"), (1, b"next")];
    for (lead, side) in [(0x50, A), (0x51, B)] {
        let records = [holding(open(0, 6, &[]), held); 2];
        let full = Lent::new(records, &[]).filled(512);
        assert_eq!(full.asked(&[lead, 0x46]), (14, side));
        let room = Lent::new(records, &[]).filled(511);
        assert_eq!(room.asked(&[lead, 0x46]), (0, side));
        let none = [holding(open(0, 6, &[]), &held[1..]); 2];
        let before = Lent::new(none, &[]).filled(512);
        let mut lent = before.clone();
        let told = lent.line(&[lead, 0x46]);
        assert_eq!((told.number, told.side, told.notice), (0, side, 0));
        assert_eq!(lent, before);
    }
}

#[test]
fn what_follows_a_frame_in_its_place_is_not_asked() {
    let mut lent = Lent::new([FRESH, end(Listening, 1, 0)], &[(A, signal(Crao, 1, 0))]);
    lent.book[11..PLACE].fill(0xff);
    let told = lent.line(&[0x52, 0, 0]);
    assert_eq!((told.number, told.state), (0, 3));
    assert_eq!(lent.book[11..PLACE], [0xff; PLACE - 11]);
}
