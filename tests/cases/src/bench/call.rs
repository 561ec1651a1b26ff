//! One call, the buffers lent to it, and what it answers and leaves there.

use super::implementation::{Bench, Lent, Named, Reply, Shown};
use super::scene::{deliver, Scene};
use crate::group::Group;
use crate::guarded::Guarded;
use crate::random::Random;
use crate::Reference;
use reference::bench::book::PLACES;
use reference::block::LONGEST_BLOCK;
use reference::frame::LONGEST_FRAME;
use reference::line;
use std::fmt::{self, Debug};

/// Counts above 512, some of which are small numbers where only their last bytes are looked at.
const TOO_MANY: [usize; 8] = [
    PLACES + 1,
    PLACES + 2,
    2 * PLACES,
    u16::MAX as usize,
    (1 << 16) + 1,
    u32::MAX as usize,
    (1 << 32) + 1,
    usize::MAX,
];

/// The buffers of a call: what it updates, what it reads and what it writes.
#[derive(Clone, Debug, PartialEq)]
pub struct Buffers {
    count: usize,
    line: Guarded,
    records: [Guarded; 2],
    pages: [Guarded; 2],
    book: Guarded,
    out: Guarded,
    up: Guarded,
}

impl Buffers {
    /// Buffers with this scene and line: mostly as they are, else with a wrong count, or shorter or
    /// longer than needed.
    pub fn any(random: &mut Random, scene: &Scene, line: &[u8]) -> Self {
        let count = match random.within(0..=23) {
            0 => random.pick(&TOO_MANY),
            _ => scene.count,
        };
        let frame = random.bytes(LONGEST_FRAME);
        let block = random.bytes(LONGEST_BLOCK);
        Self {
            count,
            line: Guarded::of(random, line),
            records: scene
                .records
                .map(|record| Guarded::resized(random, record.to_vec())),
            pages: scene
                .pages
                .map(|page| Guarded::resized(random, page.to_vec())),
            book: Guarded::resized(random, scene.book.clone()),
            out: Guarded::resized(random, frame),
            up: Guarded::resized(random, block),
        }
    }

    /// Buffers with this scene and line that are just large enough.
    pub fn exact(random: &mut Random, scene: &Scene, line: &[u8]) -> Self {
        Self {
            count: scene.count,
            line: Guarded::of(random, line),
            records: scene.records.map(|record| Guarded::of(random, &record)),
            pages: scene.pages.map(|page| Guarded::of(random, &page)),
            book: Guarded::of(random, &scene.book),
            out: Guarded::any(random, LONGEST_FRAME),
            up: Guarded::any(random, LONGEST_BLOCK),
        }
    }

    /// One case: this implementation and the reference take the line. Gives what is right.
    pub fn compare_line<B: Bench>(&self, group: &mut Group) -> After<'_, Reply> {
        let found = self.after(Self::line::<B>);
        let right = self.after(Self::line::<Reference>);
        group.check(self, right.reply.end.number, &found, &right);
        right
    }

    /// The same where the line delivers this frame. Gives the buffers as they then are.
    pub fn delivered<B: Bench>(mut self, frame: usize, group: &mut Group) -> Self {
        let line = line::write(&deliver(frame));
        self.line.bytes_mut().copy_from_slice(&line);
        let right = self.compare_line::<B>(group);
        Self {
            count: right.reply.count,
            ..right.after
        }
    }

    /// One case, in the group `named` if there is a frame to name, else in `none`: this
    /// implementation and the reference are asked. Gives the right answer.
    pub fn compare_question<B: Bench>(&self, [named, none]: &mut [Group; 2]) -> Named {
        let found = self.after(Self::first_frame::<B>);
        let right = self.after(Self::first_frame::<Reference>);
        let group = match right.reply.frame {
            Some(_) => named,
            None => none,
        };
        group.check(self, right.reply.number, &found, &right);
        right.reply
    }

    /// Makes the call on a copy of the buffers.
    fn after<R>(&self, call: impl FnOnce(&mut Self) -> R) -> After<'_, R> {
        let mut after = self.clone();
        let reply = call(&mut after);
        After {
            before: self,
            reply,
            after,
        }
    }

    /// The line, taken by this implementation.
    fn line<B: Bench>(&mut self) -> Reply {
        let lent = Lent {
            records: self.records.each_mut().map(Guarded::bytes_mut),
            pages: self.pages.each_mut().map(Guarded::bytes_mut),
            book: self.book.bytes_mut(),
            count: self.count,
            out: self.out.bytes_mut(),
            up: self.up.bytes_mut(),
        };
        B::line(lent, self.line.bytes())
    }

    /// The question, asked of this implementation.
    fn first_frame<B: Bench>(&mut self) -> Named {
        B::first_frame(self.shown())
    }

    /// What the question is lent.
    pub fn shown(&self) -> Shown<'_> {
        Shown {
            records: self.records.each_ref().map(Guarded::bytes),
            pages: self.pages.each_ref().map(Guarded::bytes),
            book: self.book.bytes(),
            count: self.count,
        }
    }
}

/// What a call answered, and all buffers after it. Two are equal if all their bytes are.
pub struct After<'a, R> {
    before: &'a Buffers,
    pub reply: R,
    after: Buffers,
}

impl<R: PartialEq> PartialEq for After<'_, R> {
    fn eq(&self, other: &Self) -> bool {
        self.reply == other.reply && self.after == other.after
    }
}

/// The answer and the bytes that changed are shown.
impl<R: Debug> Debug for After<'_, R> {
    fn fmt(&self, out: &mut fmt::Formatter) -> fmt::Result {
        let (before, after) = (self.before, &self.after);
        let [a, b] = &after.records;
        let [a_before, b_before] = &before.records;
        let [a_page, b_page] = &after.pages;
        let [a_page_before, b_page_before] = &before.pages;
        out.debug_struct("After")
            .field("reply", &self.reply)
            .field("a", &a.changed(a_before))
            .field("b", &b.changed(b_before))
            .field("a_page", &a_page.changed(a_page_before))
            .field("b_page", &b_page.changed(b_page_before))
            .field("book", &after.book.changed(&before.book))
            .field("out", &after.out.changed(&before.out))
            .field("up", &after.up.changed(&before.up))
            .field("line", &after.line.changed(&before.line))
            .finish()
    }
}
