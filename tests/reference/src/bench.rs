//! The bench: two ends and every frame ever sent, in buffers that the caller lends.

pub mod book;
mod order;
pub mod program;
mod side;

pub use order::{Order, DELIVER, REQUEST_A, REQUEST_B, RESTART};
pub use side::Side;

use crate::block::LONGEST_BLOCK;
use crate::buffer::{put, start, start_mut};
use crate::call;
use crate::frame::LONGEST_FRAME;
use crate::page::{self, PAGE};
use crate::record::{self, ask_sound, Record, RECORD};
use crate::step::{self, Outcome};
use crate::{line, Block, Frame, Refusal, Request};
use book::{Place, BOOK, PLACE, PLACES};

/// What a bench line is answered.
#[derive(Clone, Copy, Debug, PartialEq, Eq)]
pub struct Answer<'a> {
    /// The end that the answer is about.
    pub side: Side,
    /// The number, that end's state and numbers, and what its call did. A block handed up is part
    /// of the book, one that is collected stands at the start of the buffer lent for it.
    pub end: call::Answer<'a>,
    /// How many frames the book holds after the line.
    pub count: usize,
}

/// A bench line, without its line feed: questions 11, 12, 15, 1 to 10, 13 and 14, then its step.
/// Where it is refused before it names an end, the answer is about A.
pub fn line<'a>(
    mut records: [&mut [u8]; 2],
    pages: [&mut [u8]; 2],
    book: &'a mut [u8],
    count: usize,
    line: &[u8],
    out: &mut [u8],
    up: &'a mut [u8],
) -> Answer<'a> {
    let [a, b] = &mut records;
    make([a, b], pages, book, count, line, out, up).unwrap_or_else(|refusal| Answer {
        side: Side::A,
        end: call::Answer::refused(records[0], refusal),
        count,
    })
}

/// The number of the first frame in the book, the lowest numbered one, whose delivery now would be
/// accepted and change the receiver's record, if there is one. Questions 11, 12 and 15 come first.
pub fn first_frame(
    records: [&[u8]; 2],
    pages: [&[u8]; 2],
    book: &[u8],
    count: usize,
) -> Result<Option<usize>, Refusal> {
    let bench = Bench::new(records, pages, book, count)?;
    let mut changing = bench.changing();
    Ok(changing.next())
}

/// The numbers of all such frames, in their order.
pub fn changing(
    records: [&[u8]; 2],
    pages: [&[u8]; 2],
    book: &[u8],
    count: usize,
) -> Result<Vec<usize>, Refusal> {
    let bench = Bench::new(records, pages, book, count)?;
    Ok(bench.changing().collect())
}

/// All questions in their order, then the step. A refusal that is told here has named no end.
fn make<'a>(
    records: [&mut [u8]; 2],
    pages: [&mut [u8]; 2],
    book: &'a mut [u8],
    count: usize,
    line: &[u8],
    out: &mut [u8],
    up: &'a mut [u8],
) -> Result<Answer<'a>, Refusal> {
    let [a, b] = records;
    let mut records = [start_mut::<RECORD>(a)?, start_mut::<RECORD>(b)?];
    let [a, b] = pages;
    let pages = [start_mut::<PAGE>(a)?, start_mut::<PAGE>(b)?];
    let (places, _) = start_mut::<BOOK>(book)?.as_chunks_mut::<PLACE>();
    let out = start_mut::<LONGEST_FRAME>(out)?;
    let up = start_mut::<LONGEST_BLOCK>(up)?;
    let (used, free) = places.split_at_mut_checked(count).ok_or(Refusal::Unsound)?;
    let bytes = line::read(line);
    let order = match &bytes {
        Ok(bytes) => Order::read(bytes),
        Err(refusal) => Err(*refusal),
    };
    ask_ends(&mut records, pages.each_ref(), order)?;
    let bench = Bench {
        records: records.each_ref().map(|record| &**record),
        used,
    };
    let step = match order? {
        Order::Request(side, request) => bench.request(side, request),
        Order::Delivery(number) => bench.delivery(number)?,
        Order::Restart(side) => return restart(records, pages, side, count),
    };
    let mut answer = Answer {
        side: step.side,
        end: step.end,
        count,
    };
    if answer.end.number == 0 {
        answer.count += step.store(records, pages, free, out);
        answer.end.block = answer.end.block.or(step.collected(up));
    }
    Ok(answer)
}

/// Questions 12 and 15 of both ends. Of an end that the line restarts they are not asked here: its
/// record is not looked at, and its page by the restart itself.
fn ask_ends(
    records: &mut [&mut [u8; RECORD]; 2],
    pages: [&&mut [u8; PAGE]; 2],
    order: Result<Order, Refusal>,
) -> Result<(), Refusal> {
    let is_asked = |side: &Side| order != Ok(Order::Restart(*side));
    let asked = Side::BOTH.into_iter().filter(is_asked).map(Side::index);
    for end in asked.clone() {
        Record::read(records[end])?;
    }
    for end in asked {
        page::ask(pages[end], record::local(records[end]))?;
    }
    Ok(())
}

/// This end restarts on its page; the book and the other end stay as they are.
fn restart<'a>(
    records: [&mut [u8; RECORD]; 2],
    pages: [&mut [u8; PAGE]; 2],
    side: Side,
    count: usize,
) -> Result<Answer<'a>, Refusal> {
    let record = &mut records[side.index()][..];
    call::restart(record, pages[side.index()])?;
    Ok(Answer {
        side,
        end: call::Answer::silent(record, 0),
        count,
    })
}

/// A sound bench, which is only read.
struct Bench<'r, 'a> {
    records: [&'r [u8; RECORD]; 2],
    /// The places of the book that are in use.
    used: &'a [Place],
}

/// A step of one end of a bench. Nothing of it is stored yet.
struct Step<'a> {
    /// The end that makes the step.
    side: Side,
    /// Its answer, without the block that is collected.
    end: call::Answer<'a>,
    /// The byte to reserve of its page, if there is one.
    reserving: Option<usize>,
    /// Its record after the step.
    record: [u8; RECORD],
    /// Starts with the frame to send, if there is one.
    frame: [u8; LONGEST_FRAME],
    /// The block that is collected, empty if there is none.
    collected: Vec<u8>,
}

impl<'r, 'a> Bench<'r, 'a> {
    /// Questions 11, 12 and 15 of a bench that is only read.
    fn new(
        records: [&'r [u8]; 2],
        pages: [&[u8]; 2],
        book: &'a [u8],
        count: usize,
    ) -> Result<Self, Refusal> {
        let [a, b] = records;
        let records = [start(a)?, start(b)?];
        let [a, b] = pages;
        let pages = [start(a)?, start(b)?];
        let (places, _) = start::<BOOK>(book)?.as_chunks();
        let used = places.get(..count).ok_or(Refusal::Unsound)?;
        for record in records {
            ask_sound(record)?;
        }
        for (page, record) in pages.into_iter().zip(records) {
            page::ask(page, record::local(record))?;
        }
        Ok(Self { records, used })
    }

    /// The step of this end's request. A block that it collects is kept aside: 14 may refuse it.
    fn request(&self, side: Side, request: &[u8]) -> Step<'a> {
        let mut collected = Vec::new();
        let step = self.end(side, |record| {
            let mut up = [0; LONGEST_BLOCK];
            let outcome = step::request(record, Request::read(request)?, &mut up)?;
            collected.extend(outcome.block.map_or(&[][..], Block::bytes));
            Ok(outcome.without_block())
        });
        Step { collected, ..step }
    }

    /// Question 13, then the step of the end that did not send the frame.
    fn delivery(&self, number: usize) -> Result<Step<'a>, Refusal> {
        let (sender, frame) = book::find(self.used, number)?;
        Ok(self.end(sender.other(), |record| {
            Ok(step::receive(record, Frame::read(frame)?))
        }))
    }

    /// The step that is made so at this end, then question 14.
    fn end(
        &self,
        side: Side,
        step: impl FnOnce(&mut Record) -> Result<Outcome<'a>, Refusal>,
    ) -> Step<'a> {
        let before = self.records[side.index()];
        let mut record = *before;
        let mut frame = [0; LONGEST_FRAME];
        let made = Record::read(&mut record)
            .and_then(|record| call::make(record, &mut frame, step))
            .and_then(|made| self.ask_place(made));
        let told = if made.is_ok() { &record } else { before };
        Step {
            side,
            end: call::answer(told, made),
            reserving: made.ok().and_then(|(outcome, _)| outcome.reserving),
            record,
            frame,
            collected: Vec::new(),
        }
    }

    /// Question 14: if the step sends a frame, has the book a place for it?
    fn ask_place(&self, made: (Outcome<'a>, usize)) -> call::Made<'a> {
        let (_, sent) = made;
        if sent > 0 && self.used.len() >= PLACES {
            return Err(Refusal::BookFull);
        }
        Ok(made)
    }

    /// The numbers of the frames whose delivery would be accepted and change the receiver's
    /// record.
    fn changing(&self) -> impl Iterator<Item = usize> + '_ {
        (0..self.used.len()).filter(|&number| self.changes(number))
    }

    /// Would the delivery of this frame be accepted and change the receiver's record?
    fn changes(&self, number: usize) -> bool {
        self.delivery(number).is_ok_and(|step| {
            step.end.number == 0 && step.record != *self.records[step.side.index()]
        })
    }
}

impl Step<'_> {
    /// Stores a step that is accepted: first the byte of the page, if one is reserved, then the
    /// record and, if a frame is sent, the frame and the next place of the book. Gives how many
    /// frames are sent.
    fn store(
        &self,
        records: [&mut [u8; RECORD]; 2],
        pages: [&mut [u8; PAGE]; 2],
        free: &mut [Place],
        out: &mut [u8; LONGEST_FRAME],
    ) -> usize {
        let own = self.side.index();
        if let Some(place) = self.reserving {
            page::reserve(pages[own], place);
        }
        *records[own] = self.record;
        if self.end.sent == 0 {
            return 0;
        }
        let frame = &self.frame[..self.end.sent];
        put(out, frame);
        free[0] = book::place(self.side, frame);
        1
    }

    /// The block that an accepted step collected, if it did, copied to the buffer lent for it.
    fn collected<'u>(&self, up: &'u mut [u8; LONGEST_BLOCK]) -> Option<Block<'u>> {
        let block = Block::new(&self.collected).ok()?;
        Some(block.copied(up))
    }
}
