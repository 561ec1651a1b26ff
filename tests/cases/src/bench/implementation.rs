//! The calls that an implementation of a bench offers.

use crate::end;
use crate::Reference;
use reference::bench;
use reference::{refusal, Refusal};

/// One implementation of a bench.
pub trait Bench {
    /// A bench line, without its line feed.
    fn line(lent: Lent, line: &[u8]) -> Reply;
    /// The question: names the first frame in the book, the lowest numbered one, whose delivery now
    /// would be accepted and change the receiver's record.
    fn first_frame(shown: Shown) -> Named;
}

/// What is lent to a bench line.
pub struct Lent<'a> {
    /// The records of A and B.
    pub records: [&'a mut [u8]; 2],
    /// Their pages.
    pub pages: [&'a mut [u8]; 2],
    pub book: &'a mut [u8],
    /// How many frames the book holds.
    pub count: usize,
    /// For the frame sent.
    pub out: &'a mut [u8],
    /// For a block that is collected.
    pub up: &'a mut [u8],
}

/// What is lent to the question.
#[derive(Clone, Copy)]
pub struct Shown<'a> {
    /// The records of A and B.
    pub records: [&'a [u8]; 2],
    /// Their pages.
    pub pages: [&'a [u8]; 2],
    pub book: &'a [u8],
    /// How many frames the book holds.
    pub count: usize,
}

impl Shown<'_> {
    /// The numbers of all frames whose delivery now would be accepted and change the receiver's
    /// record, in their order.
    pub fn changing(self) -> Result<Vec<usize>, Refusal> {
        bench::changing(self.records, self.pages, self.book, self.count)
    }
}

/// What a bench line is answered.
#[derive(Clone, Debug, Default, PartialEq)]
pub struct Reply {
    /// The end that the answer is about: 0 is A, 1 is B.
    pub side: u8,
    /// The number, that end's state and numbers, and what its call did. A block stands in the book,
    /// a collected one in the buffer for it.
    pub end: end::Reply,
    /// How many frames the book holds after the line.
    pub count: usize,
}

/// What the question is answered.
#[derive(Clone, Debug, Default, PartialEq)]
pub struct Named {
    /// 0, or the number of the refusal.
    pub number: u8,
    /// The number of the frame, counted from 0.
    pub frame: Option<usize>,
}

impl Bench for Reference {
    fn line(lent: Lent, line: &[u8]) -> Reply {
        let Lent {
            records,
            pages,
            book,
            count,
            out,
            up,
        } = lent;
        let buffers = [book.as_ptr_range(), up.as_ptr_range()];
        let answer = bench::line(records, pages, book, count, line, out, up);
        Reply {
            side: answer.side as u8,
            end: end::Reply::of(&answer.end, &buffers),
            count: answer.count,
        }
    }

    fn first_frame(shown: Shown) -> Named {
        let named = bench::first_frame(shown.records, shown.pages, shown.book, shown.count);
        Named {
            number: refusal::number(named),
            frame: named.ok().flatten(),
        }
    }
}
