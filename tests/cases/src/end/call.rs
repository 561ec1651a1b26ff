//! One call, the buffers lent to it, and what it answers and leaves there.

use super::implementation::{End, Reply};
use crate::group::Group;
use crate::guarded::Guarded;
use crate::random::Random;
use crate::Reference;
use reference::block::LONGEST_BLOCK;
use reference::frame::LONGEST_FRAME;

/// The calls of one end.
#[derive(Clone, Copy, Debug)]
pub enum Call {
    Restart,
    Request,
    Receive,
}

/// The buffers of a call: what it updates, what it reads and what it writes.
#[derive(Clone, Debug, PartialEq)]
pub struct Buffers {
    record: Guarded,
    page: Guarded,
    message: Guarded,
    out: Guarded,
    up: Guarded,
}

impl Buffers {
    /// Buffers with this record, page and message; mostly just large enough, else shorter or longer.
    pub fn any(random: &mut Random, record: &[u8], page: &[u8], message: &[u8]) -> Self {
        let frame = random.bytes(LONGEST_FRAME);
        let block = random.bytes(LONGEST_BLOCK);
        Self {
            record: Guarded::resized(random, record.to_vec()),
            page: Guarded::resized(random, page.to_vec()),
            message: Guarded::of(random, message),
            out: Guarded::resized(random, frame),
            up: Guarded::resized(random, block),
        }
    }

    /// Buffers with this record, page and message that are just large enough.
    pub fn exact(random: &mut Random, record: &[u8], page: &[u8], message: &[u8]) -> Self {
        Self {
            record: Guarded::of(random, record),
            page: Guarded::of(random, page),
            message: Guarded::of(random, message),
            out: Guarded::any(random, LONGEST_FRAME),
            up: Guarded::any(random, LONGEST_BLOCK),
        }
    }
}

impl Call {
    /// One case: this implementation and the reference make the call. Gives the right number.
    pub fn compare<E: End>(self, group: &mut Group, buffers: &Buffers) -> u8 {
        let found = self.make::<E>(buffers.clone());
        let right = self.make::<Reference>(buffers.clone());
        let number = right.0.number;
        group.check(&(self, buffers), number, &found, &right);
        number
    }

    /// Makes the call; gives what it answers, and the buffers after it.
    fn make<E: End>(self, mut buffers: Buffers) -> (Reply, Buffers) {
        let record = buffers.record.bytes_mut();
        let page = buffers.page.bytes_mut();
        let message = buffers.message.bytes();
        let out = buffers.out.bytes_mut();
        let up = buffers.up.bytes_mut();
        let reply = match self {
            Self::Restart => Reply {
                number: E::restart(record, page),
                ..Reply::default()
            },
            Self::Request => E::request(record, page, message, out, up),
            Self::Receive => E::receive(record, page, message, out),
        };
        (reply, buffers)
    }
}
