//! The comparison finds what is wrong, and nothing else.

mod hanging_up;
mod held;
mod restart;

use super::questions::Delivery;
use super::{calls, compare, lines, nothing_met, questions, walks};
use super::{Bench, Lent, Named, Reply, Shown};
use crate::records::{self, HELD_LENGTHS};
use crate::{pages, Reference};
use reference::bench::book::{self, Place, BOOK, HEAD, PLACE, PLACES};
use reference::bench::{Order, Side};
use reference::block::LONGEST_BLOCK;
use reference::frame::LONGEST_FRAME;
use reference::line;
use reference::page::{self, PAGE};
use reference::record::{Record, RECORD};
use reference::Frame;

/// A bench that is the reference but for the calls that it makes otherwise.
trait Faulty {
    fn line(lent: Lent, line: &[u8]) -> Reply {
        Reference::line(lent, line)
    }

    fn first_frame(shown: Shown) -> Named {
        Reference::first_frame(shown)
    }
}

impl<T: Faulty> Bench for T {
    fn line(lent: Lent, line: &[u8]) -> Reply {
        <T as Faulty>::line(lent, line)
    }

    fn first_frame(shown: Shown) -> Named {
        <T as Faulty>::first_frame(shown)
    }
}

/// The reference, with its promises checked at each call.
struct Checked;

impl Bench for Checked {
    fn line(lent: Lent, line: &[u8]) -> Reply {
        let Lent {
            records: [a, b],
            pages: [a_page, b_page],
            book,
            count,
            out,
            up,
        } = lent;
        let before = [&*a, &*b, &*book, &*out, &*up, &*a_page, &*b_page].map(<[u8]>::to_vec);
        let again = Lent {
            records: [&mut *a, &mut *b],
            pages: [&mut *a_page, &mut *b_page],
            book: &mut *book,
            count,
            out: &mut *out,
            up: &mut *up,
        };
        let reply = Reference::line(again, line);
        let after = [&*a, &*b, &*book, &*out, &*up, &*a_page, &*b_page].map(<[u8]>::to_vec);
        match reply.end.number {
            0 => assert_accepted(&before, &after, count, &reply),
            _ => assert_refused(&before, &after, count, &reply),
        }
        reply
    }

    fn first_frame(shown: Shown) -> Named {
        let named = Reference::first_frame(shown);
        match named.number {
            0 => assert_named(shown, named.frame),
            _ => assert_eq!(named.frame, None),
        }
        named
    }
}

/// The records of A and B, the book, the buffers for the frame and for a collected block, the pages
/// of A and B.
type All = [Vec<u8>; 7];

/// A refusal leaves all bytes and the count, and tells nothing.
fn assert_refused(before: &All, after: &All, count: usize, reply: &Reply) {
    assert_eq!(before, after);
    assert_eq!(reply.count, count);
    let end = &reply.end;
    assert_eq!((end.notice, end.sent, end.block.len()), (0, 0, 0));
}

/// A success leaves a sound record with the right page, and the other end's as they were; what it sends is a readable frame,
/// written to the buffer and, whole, to the next place; a block that is not part of the book was
/// held, and is written to the buffer for it; all other bytes stay.
fn assert_accepted(before: &All, after: &All, count: usize, reply: &Reply) {
    let mut right = before.clone();
    let side = Side::of(reply.side).unwrap();
    let own = side.index();
    let record = *after[own].first_chunk::<RECORD>().unwrap();
    assert!(Record::read(&mut record.clone()).is_ok());
    right[own][..RECORD].copy_from_slice(&record);
    right[5 + own][..PAGE].copy_from_slice(&pages::right(&record));
    let sent = reply.end.sent;
    if sent > 0 {
        let frame = &after[3][..sent];
        assert!(Frame::read(frame).is_ok());
        right[2][count * PLACE..][..PLACE].copy_from_slice(&book::place(side, frame));
        right[3][..sent].copy_from_slice(frame);
    }
    let block = reply.end.block.clone();
    assert_eq!(block.is_empty(), reply.end.notice != 5);
    if block.start == 0 {
        let (lengths, blocks) = before[own][HELD_LENGTHS..].split_at(records::PLACES);
        assert!(block.is_empty() || block.len() == usize::from(lengths[0]));
        right[4][..block.end].copy_from_slice(&blocks[..block.end]);
    }
    assert!(*after == right);
    assert_eq!(reply.count, count + usize::from(sent > 0));
    assert!(reply.count <= PLACES);
}

/// So many frames up to the one that is named are delivered by lines too.
const DELIVERED: usize = 5;

/// Deliveries say the same: that of the frame that is named changes a record, and no lower one does.
fn assert_named(shown: Shown, frame: Option<usize>) {
    let mut deliveries = (0..shown.count).map(|frame| Delivery::of(shown, frame));
    let first_change = deliveries.position(|delivery| delivery == Delivery::CHANGING);
    assert_eq!(first_change, frame);
    let end = frame.map_or(shown.count, |frame| frame + 1);
    for frame in end.saturating_sub(DELIVERED)..end {
        assert_delivery(shown, frame);
    }
}

/// A line that delivers this frame says the same of it.
fn assert_delivery(shown: Shown, frame: usize) {
    let [mut a, mut b] = shown.records.map(<[u8]>::to_vec);
    let [mut a_page, mut b_page] = shown.pages.map(<[u8]>::to_vec);
    let lent = Lent {
        records: [&mut a, &mut b],
        pages: [&mut a_page, &mut b_page],
        book: &mut shown.book.to_vec(),
        count: shown.count,
        out: &mut [0; LONGEST_FRAME],
        up: &mut [0; LONGEST_BLOCK],
    };
    let reply = Reference::line(lent, format!("52{frame:04x}").as_bytes());
    let delivery = Delivery::of(shown, frame);
    assert_eq!(reply.end.number, delivery.number);
    let changes = delivery == Delivery::CHANGING;
    assert_eq!([a, b] != shown.records.map(<[u8]>::to_vec), changes);
}

#[test]
fn the_reference_equals_itself_and_keeps_its_promises() {
    let score = compare::<Checked>(8);
    assert_eq!(score.failed, 0);
    assert!(score.passed > 80_000);
}

/// How many calls of one round fail.
fn failed<B: Bench>() -> u64 {
    calls::<B>(1, &mut nothing_met()).failed
}

/// How many lines of four rounds fail: a fault that few lines show needs more of them.
fn failed_lines<B: Bench>() -> u64 {
    lines::<B>(4, &mut nothing_met()).report().failed
}

/// How many questions of four rounds fail.
fn failed_questions<B: Bench>() -> u64 {
    let mut met = nothing_met();
    questions::<B>(4, &mut met);
    met.questions.report().failed
}

/// How many walks of a round and deliveries of theirs fail.
fn failed_walks<B: Bench>() -> u64 {
    walks::<B>(1, &mut nothing_met()).report().failed
}

#[test]
fn few_rounds_are_enough_for_what_is_right() {
    let failed = [
        failed::<Reference>(),
        failed_lines::<Reference>(),
        failed_questions::<Reference>(),
        failed_walks::<Reference>(),
    ];
    assert_eq!(failed, [0; 4]);
}

/// The reference with a fault in its lines.
struct Broken<const FAULT: u8>;

const LEAVES_THE_REST_OF_THE_PLACE: u8 = 0;
const WRITES_PAST_THE_FRAME: u8 = 1;
const WRITES_THE_PLACE_AS_IT_REFUSES: u8 = 2;
const STORES_THE_RECORD_BEFORE_14: u8 = 3;
const FORGETS_THE_COUNT: u8 = 4;
const ASKS_14_OF_ALL: u8 = 5;
const TELLS_OF_A_AS_IT_REFUSES: u8 = 6;
const TAKES_513: u8 = 7;
const FORGETS_THE_OTHER_RECORD: u8 = 8;
const WRONG_SENDER: u8 = 9;
const LOOKS_BEYOND_THE_COUNT: u8 = 10;
const BLOCK_IN_THE_FRAME: u8 = 11;
const ASKS_THE_REST_OF_THE_PLACE: u8 = 12;
const FORGETS_THE_BOOKS_LENGTH: u8 = 13;
const TAKES_A_LENGTH_OF_8: u8 = 14;
const CUTS_THE_COUNT: u8 = 15;
const FAULTS: usize = 16;

impl<const FAULT: u8> Faulty for Broken<FAULT> {
    fn line(lent: Lent, line: &[u8]) -> Reply {
        let Lent {
            records: [a, b],
            pages: [a_page, b_page],
            book,
            count,
            out,
            up,
        } = lent;
        let before = book.to_vec();
        let mut new = page::NEW;
        let mut fresh = [0; RECORD];
        let forgets_b = FAULT == FORGETS_THE_OTHER_RECORD && line.starts_with(b"50");
        let forgets_length = FAULT == FORGETS_THE_BOOKS_LENGTH && book.len() < BOOK;
        let mut longer = match forgets_length {
            true => [&book[..], &[0; BOOK]].concat(),
            false => Vec::new(),
        };
        let broken = Lent {
            records: [&mut *a, if forgets_b { &mut fresh } else { &mut *b }],
            pages: [a_page, if forgets_b { &mut new } else { b_page }],
            book: if forgets_length {
                &mut longer
            } else {
                &mut *book
            },
            count: Self::count(count, line),
            out: &mut *out,
            up,
        };
        let mut reply = Reference::line(broken, line);
        Self::spoil_reply(&mut reply, count, delivered(&before, line));
        match FAULT {
            LEAVES_THE_REST_OF_THE_PLACE if reply.end.sent > 0 => {
                let rest = count * PLACE + HEAD + reply.end.sent..(count + 1) * PLACE;
                book[rest.clone()].copy_from_slice(&before[rest]);
            }
            WRONG_SENDER if reply.end.sent > 0 => book[count * PLACE] ^= 1,
            WRITES_THE_PLACE_AS_IT_REFUSES if reply.end.number == 10 && count < PLACES => {
                book[count * PLACE] ^= 1;
            }
            WRITES_PAST_THE_FRAME if (1..out.len()).contains(&reply.end.sent) => {
                out[reply.end.sent] ^= 1;
            }
            STORES_THE_RECORD_BEFORE_14 if reply.end.number == 14 => {
                [a, b][usize::from(reply.side)][RECORD - 1] ^= 1;
            }
            _ => {}
        }
        reply
    }
}

impl<const FAULT: u8> Broken<FAULT> {
    /// The count that it goes by.
    fn count(count: usize, line: &[u8]) -> usize {
        match FAULT {
            TAKES_513 if count == PLACES + 1 => PLACES,
            CUTS_THE_COUNT => count & 0xffff,
            LOOKS_BEYOND_THE_COUNT if (count..PLACES).contains(&number(line)) => number(line) + 1,
            _ => count,
        }
    }

    /// Spoils an answer to a line, which may have delivered the frame in this place.
    fn spoil_reply(reply: &mut Reply, count: usize, place: Option<Place>) {
        let end = &mut reply.end;
        match FAULT {
            FORGETS_THE_COUNT if end.sent > 0 => reply.count = count,
            ASKS_14_OF_ALL if count == PLACES && end.number == 0 => end.number = 14,
            TELLS_OF_A_AS_IT_REFUSES if end.number > 0 => reply.side = 0,
            BLOCK_IN_THE_FRAME if end.notice == 5 => end.block = 14..15,
            ASKS_THE_REST_OF_THE_PLACE if place.is_some_and(has_rest) => end.number = 13,
            TAKES_A_LENGTH_OF_8 if end.number == 13 && place.is_some_and(|place| place[1] == 8) => {
                end.number = 4;
            }
            _ => {}
        }
    }
}

/// The number of the frame that a line delivers; if it delivers none, a number beyond the book.
fn number(line: &[u8]) -> usize {
    match line::read(line).as_deref().map(Order::read) {
        Ok(Ok(Order::Delivery(number))) => number,
        _ => PLACES,
    }
}

/// The place that a line delivers from.
fn delivered(book: &[u8], line: &[u8]) -> Option<Place> {
    book.as_chunks().0.get(number(line)).copied()
}

/// Has the place other bytes than 0 after its frame?
fn has_rest(place: Place) -> bool {
    let rest = place.get(HEAD + usize::from(place[1])..);
    rest.is_some_and(|rest| rest.iter().any(|&byte| byte != 0))
}

#[test]
fn every_fault_of_a_line_is_found() {
    let failed: [u64; FAULTS] = [
        failed::<Broken<LEAVES_THE_REST_OF_THE_PLACE>>(),
        failed::<Broken<WRITES_PAST_THE_FRAME>>(),
        failed::<Broken<WRITES_THE_PLACE_AS_IT_REFUSES>>(),
        failed::<Broken<STORES_THE_RECORD_BEFORE_14>>(),
        failed::<Broken<FORGETS_THE_COUNT>>(),
        failed::<Broken<ASKS_14_OF_ALL>>(),
        failed::<Broken<TELLS_OF_A_AS_IT_REFUSES>>(),
        failed::<Broken<TAKES_513>>(),
        failed::<Broken<FORGETS_THE_OTHER_RECORD>>(),
        failed::<Broken<WRONG_SENDER>>(),
        failed::<Broken<LOOKS_BEYOND_THE_COUNT>>(),
        failed::<Broken<BLOCK_IN_THE_FRAME>>(),
        failed::<Broken<ASKS_THE_REST_OF_THE_PLACE>>(),
        failed::<Broken<FORGETS_THE_BOOKS_LENGTH>>(),
        failed::<Broken<TAKES_A_LENGTH_OF_8>>(),
        failed::<Broken<CUTS_THE_COUNT>>(),
    ];
    assert!(failed.iter().all(|&failed| failed > 0), "{failed:?}");
}

#[test]
fn faults_of_a_line_are_found_on_walks_too() {
    let failed = [
        failed_walks::<Broken<LEAVES_THE_REST_OF_THE_PLACE>>(),
        failed_walks::<Broken<FORGETS_THE_COUNT>>(),
        failed_walks::<Broken<WRONG_SENDER>>(),
        failed_walks::<Broken<BLOCK_IN_THE_FRAME>>(),
    ];
    assert!(failed.iter().all(|&failed| failed > 0), "{failed:?}");
}

/// The reference with a fault as it reads a line.
struct Misreading<const FAULT: u8>;

const ASKS_1_BEFORE_12: u8 = 0;
const ASKS_2_BEFORE_1: u8 = 1;
const TELLS_OF_B_AS_2_REFUSES: u8 = 2;
const REFUSES_CAPITALS: u8 = 3;
const TAKES_158_DIGITS: u8 = 4;
const CUTS_THE_LENGTH: u8 = 5;
const REFUSES_A_SECOND_CAPITAL: u8 = 6;
const TAKES_G: u8 = 7;
const TAKES_THE_AT_SIGN: u8 = 8;
const TAKES_THE_BACKQUOTE: u8 = 9;
const READS_A_AS_11: u8 = 10;
const TAKES_AN_EMPTY_LINE: u8 = 11;

/// The line with this character in place of that one.
fn replaced(line: &[u8], wrong: u8, right: u8) -> Vec<u8> {
    let character = |&character: &u8| if character == wrong { right } else { character };
    line.iter().map(character).collect()
}

impl<const FAULT: u8> Faulty for Misreading<FAULT> {
    fn line(lent: Lent, line: &[u8]) -> Reply {
        let is_capital = |character: &u8| matches!(character, b'A'..=b'F');
        let mut reply = match FAULT {
            REFUSES_CAPITALS if line.iter().any(is_capital) => Reference::line(lent, b"zz"),
            REFUSES_A_SECOND_CAPITAL if line.iter().skip(1).step_by(2).any(is_capital) => {
                Reference::line(lent, b"zz")
            }
            TAKES_G => Reference::line(lent, &replaced(line, b'G', b'0')),
            TAKES_THE_AT_SIGN => Reference::line(lent, &replaced(line, b'@', b'0')),
            TAKES_THE_BACKQUOTE => Reference::line(lent, &replaced(line, b'`', b'0')),
            READS_A_AS_11 => Reference::line(lent, &replaced(line, b'A', b'B')),
            TAKES_158_DIGITS if line.len() == 158 => Reference::line(lent, &line[..156]),
            CUTS_THE_LENGTH => Reference::line(lent, &line[..line.len() & 0xffff]),
            _ => Reference::line(lent, line),
        };
        match FAULT {
            ASKS_1_BEFORE_12 if line.len() % 2 == 1 => reply.end.number = 1,
            ASKS_2_BEFORE_1 if reply.end.number == 1 && !line.iter().all(u8::is_ascii_hexdigit) => {
                reply.end.number = 2;
            }
            TAKES_AN_EMPTY_LINE if line.is_empty() && reply.end.number == 1 => {
                reply.end.number = 0;
            }
            TELLS_OF_B_AS_2_REFUSES if reply.end.number == 2 && line.starts_with(b"51") => {
                reply.side = 1;
            }
            _ => {}
        }
        reply
    }
}

#[test]
fn every_fault_of_reading_is_found() {
    let failed = [
        failed::<Misreading<ASKS_1_BEFORE_12>>(),
        failed::<Misreading<ASKS_2_BEFORE_1>>(),
        failed::<Misreading<TELLS_OF_B_AS_2_REFUSES>>(),
        failed::<Misreading<REFUSES_CAPITALS>>(),
        failed::<Misreading<REFUSES_A_SECOND_CAPITAL>>(),
        failed::<Misreading<TAKES_G>>(),
        failed::<Misreading<TAKES_THE_AT_SIGN>>(),
        failed::<Misreading<TAKES_THE_BACKQUOTE>>(),
        failed::<Misreading<READS_A_AS_11>>(),
        failed::<Misreading<TAKES_AN_EMPTY_LINE>>(),
        failed::<Misreading<TAKES_158_DIGITS>>(),
        failed::<Misreading<CUTS_THE_LENGTH>>(),
    ];
    assert!(failed.iter().all(|&failed| failed > 0), "{failed:?}");
}

/// The reference with a fault in its answers to the question.
struct Misnaming<const FAULT: u8>;

const ALWAYS_NONE: u8 = 0;
const NAMES_THE_NEXT: u8 = 1;
const NAMES_WHAT_14_REFUSES: u8 = 2;
const LOOKS_AT_ONE_TOO_FEW: u8 = 3;
const NEVER_REFUSES: u8 = 4;
const NAMES_WHAT_ONLY_SENDS: u8 = 5;
const NAMES_THE_LAST: u8 = 6;
const SKIPS_FRAME_0: u8 = 7;
const NAMES_THE_FIRST_ACCEPTED: u8 = 8;

impl<const FAULT: u8> Faulty for Misnaming<FAULT> {
    fn first_frame(shown: Shown) -> Named {
        let right = Reference::first_frame(shown);
        match right.number {
            0 => Named {
                number: 0,
                frame: Self::named(shown, right.frame),
            },
            _ if FAULT == NEVER_REFUSES => Named::default(),
            _ => right,
        }
    }
}

impl<const FAULT: u8> Misnaming<FAULT> {
    /// What is named where this is right.
    fn named(shown: Shown, right: Option<usize>) -> Option<usize> {
        let count = shown.count;
        let first = |is_named: fn(Delivery) -> bool| {
            (0..count).find(|&frame| is_named(Delivery::of(shown, frame)))
        };
        let changing = || shown.changing().into_iter().flatten();
        match FAULT {
            ALWAYS_NONE => None,
            NAMES_THE_NEXT => right.map(|frame| frame + 1),
            NAMES_WHAT_14_REFUSES => first(|delivery| delivery.changes),
            LOOKS_AT_ONE_TOO_FEW => right.filter(|frame| frame + 1 < count),
            NAMES_WHAT_ONLY_SENDS => right.or((count > 0).then_some(0)),
            NAMES_THE_LAST => changing().last(),
            SKIPS_FRAME_0 => changing().find(|&frame| frame > 0),
            NAMES_THE_FIRST_ACCEPTED => first(|delivery| delivery.number == 0),
            _ => right,
        }
    }
}

#[test]
fn every_fault_of_the_question_is_found() {
    let failed = [
        failed_questions::<Misnaming<ALWAYS_NONE>>(),
        failed_questions::<Misnaming<NAMES_THE_NEXT>>(),
        failed_questions::<Misnaming<NAMES_WHAT_14_REFUSES>>(),
        failed_questions::<Misnaming<LOOKS_AT_ONE_TOO_FEW>>(),
        failed_questions::<Misnaming<NEVER_REFUSES>>(),
        failed_questions::<Misnaming<NAMES_WHAT_ONLY_SENDS>>(),
        failed_questions::<Misnaming<NAMES_THE_LAST>>(),
        failed_questions::<Misnaming<SKIPS_FRAME_0>>(),
        failed_questions::<Misnaming<NAMES_THE_FIRST_ACCEPTED>>(),
    ];
    assert!(failed.iter().all(|&failed| failed > 0), "{failed:?}");
}
