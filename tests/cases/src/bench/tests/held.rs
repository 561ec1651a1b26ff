//! What is wrong about held blocks on a bench is found.

use super::{failed, failed_questions, number, Faulty};
use crate::bench::{Bench, Lent, Named, Reply, Shown};
use crate::records::{held, Numbers};
use crate::Reference;
use reference::bench::book::{self, PLACE, PLACES};
use reference::block::LONGEST_BLOCK;
use reference::frame::Body;
use reference::record::RECORD;
use reference::Frame;

/// The reference, whose faults have to do with a line that collects.
struct Broken<const FAULT: u8>;

const ASKS_NO_SECOND_BUFFER: u8 = 0;
const ASKS_NO_SECOND_BUFFER_OF_DELIVERIES: u8 = 1;
const WRITES_UP_BEFORE_14: u8 = 2;
const ASKS_14_WHERE_NONE_IS_HELD: u8 = 3;
const COLLECTS_INTO_THE_BOOK: u8 = 4;
const WRITES_THE_WHOLE_SECOND_BUFFER: u8 = 5;
const TELLS_OF_NO_BLOCK: u8 = 6;
const COPIES_DELIVERED_BLOCKS_UP: u8 = 7;

impl<const FAULT: u8> Faulty for Broken<FAULT> {
    fn line(lent: Lent, line: &[u8]) -> Reply {
        let Lent {
            records,
            pages,
            book,
            count,
            out,
            up,
        } = lent;
        let own = &mut [0; LONGEST_BLOCK];
        let is_short = up.len() < own.len();
        let is_delivery = number(line) < PLACES;
        let uses_own = match FAULT {
            ASKS_NO_SECOND_BUFFER => is_short,
            ASKS_NO_SECOND_BUFFER_OF_DELIVERIES => is_short && is_delivery,
            _ => false,
        };
        let broken = Lent {
            records,
            pages,
            book,
            count,
            out,
            up: if uses_own { own } else { &mut *up },
        };
        let mut reply = Reference::line(broken, line);
        if line.ends_with(b"46") && !is_delivery {
            Self::spoil_collect(&mut reply, count, up);
        }
        if FAULT == COPIES_DELIVERED_BLOCKS_UP && is_delivery && reply.end.notice == 5 {
            up[0] = up[0].wrapping_add(1);
        }
        reply
    }
}

impl<const FAULT: u8> Broken<FAULT> {
    /// Spoils a collect.
    fn spoil_collect(reply: &mut Reply, count: usize, up: &mut [u8]) {
        let end = &mut reply.end;
        match (FAULT, end.number) {
            (WRITES_UP_BEFORE_14, 14) => up[0] ^= 1,
            (ASKS_14_WHERE_NONE_IS_HELD, 0) if count == PLACES => end.number = 14,
            (COLLECTS_INTO_THE_BOOK, 0) if end.notice == 5 => {
                let place = count * PLACE;
                end.block = place..place + end.block.len();
            }
            (WRITES_THE_WHOLE_SECOND_BUFFER, 0) if end.notice == 5 => {
                up[end.block.end..LONGEST_BLOCK].fill(0);
            }
            (TELLS_OF_NO_BLOCK, 0) => end.block = 0..0,
            _ => {}
        }
    }
}

#[test]
fn every_fault_of_a_line_that_collects_is_found() {
    let failed = [
        failed::<Broken<ASKS_NO_SECOND_BUFFER>>(),
        failed::<Broken<ASKS_NO_SECOND_BUFFER_OF_DELIVERIES>>(),
        failed::<Broken<WRITES_UP_BEFORE_14>>(),
        failed::<Broken<ASKS_14_WHERE_NONE_IS_HELD>>(),
        failed::<Broken<COLLECTS_INTO_THE_BOOK>>(),
        failed::<Broken<WRITES_THE_WHOLE_SECOND_BUFFER>>(),
        failed::<Broken<TELLS_OF_NO_BLOCK>>(),
        failed::<Broken<COPIES_DELIVERED_BLOCKS_UP>>(),
    ];
    assert!(failed.iter().all(|&failed| failed > 0), "{failed:?}");
}

/// The reference, whose answers to the question are wrong about early blocks.
struct Misnaming<const FAULT: u8>;

const LEAVES_OUT_EARLY_BLOCKS: u8 = 0;
const NAMES_SECOND_COPIES: u8 = 1;
const NAMES_THE_EIGHTH_ABOVE: u8 = 2;

impl<const FAULT: u8> Faulty for Misnaming<FAULT> {
    fn first_frame(shown: Shown) -> Named {
        let Ok(changing) = shown.changing() else {
            return Reference::first_frame(shown);
        };
        let count = shown.count;
        let above = |frame: &usize| above(shown.records, shown.book, *frame);
        let frame = match FAULT {
            LEAVES_OUT_EARLY_BLOCKS => changing
                .into_iter()
                .find(|frame| above(frame).is_none_or(|(above, _)| above == 0)),
            NAMES_SECOND_COPIES if changing.is_empty() => (0..count)
                .find(|frame| above(frame).is_some_and(|(above, is_held)| above > 0 && is_held)),
            NAMES_THE_EIGHTH_ABOVE if changing.is_empty() => {
                (0..count).find(|frame| above(frame).is_some_and(|(above, _)| above == 8))
            }
            _ => changing.first().copied(),
        };
        Named { number: 0, frame }
    }
}

/// How far a DATA of the book for an open connection is above e of the end that it reaches, and
/// whether a copy is held there.
fn above(records: [&[u8]; 2], book: &[u8], frame: usize) -> Option<(u32, bool)> {
    let (sender, frame) = book::find(book.as_chunks().0, frame).ok()?;
    let record: &[u8; RECORD] = records[sender.other().index()].first_chunk()?;
    let numbers = Numbers::of(record);
    let frame = Frame::read(frame).ok()?;
    let is_ours = (frame.sender, frame.quoted) == (numbers.remote, numbers.local);
    match frame.body {
        Body::Data { sequence, .. } if is_ours => {
            let above = sequence.checked_sub(numbers.handed_up)?;
            let is_held = held(record)
                .get(above as usize)
                .is_some_and(|&length| length > 0);
            Some((above, is_held))
        }
        _ => None,
    }
}

#[test]
fn every_fault_of_the_question_about_early_blocks_is_found() {
    let failed = [
        failed_questions::<Misnaming<LEAVES_OUT_EARLY_BLOCKS>>(),
        failed_questions::<Misnaming<NAMES_SECOND_COPIES>>(),
        failed_questions::<Misnaming<NAMES_THE_EIGHTH_ABOVE>>(),
    ];
    assert!(failed.iter().all(|&failed| failed > 0), "{failed:?}");
}
