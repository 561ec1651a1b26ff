//! One step of an end: what a request or a frame does to its record.

mod frames;
mod requests;

pub use frames::make as receive;
pub use requests::make as request;

use crate::block::LONGEST_BLOCK;
use crate::frame::{Body, Signal};
use crate::record::Record;
use crate::{Block, Frame, Message, Notice, Refusal, State};

/// What a step does besides changing the record.
#[derive(Clone, Copy, Debug, Default, PartialEq, Eq)]
pub struct Outcome<'a> {
    pub notice: Notice,
    pub sending: Option<Sending>,
    /// The block handed up: part of the received frame, or collected into the buffer lent for it.
    pub block: Option<Block<'a>>,
    /// The byte of the page to reserve before anything else is stored.
    pub reserving: Option<usize>,
}

/// A frame to send. Its sender's number is the end's own.
#[derive(Clone, Copy, Debug, PartialEq, Eq)]
pub enum Sending {
    /// A signal that quotes this number.
    Signal(Signal, u32),
    /// The DATA of the block in this place.
    Data(usize),
    /// ACK of all blocks handed up.
    Ack,
}

impl Outcome<'_> {
    /// Nothing is sent, handed up or told.
    const SILENT: Self = Self {
        notice: Notice::None,
        sending: None,
        block: None,
        reserving: None,
    };

    /// This frame is sent.
    fn send(sending: Sending) -> Self {
        Self {
            sending: Some(sending),
            ..Self::SILENT
        }
    }

    /// This signal is sent, quoting this number.
    fn signal(signal: Signal, quoted: u32) -> Self {
        Self::send(Sending::Signal(signal, quoted))
    }

    /// The same with this notice.
    fn with(self, notice: Notice) -> Self {
        Self { notice, ..self }
    }

    /// The same with this byte of the page to reserve, if any.
    fn reserve(self, reserving: Option<usize>) -> Self {
        Self { reserving, ..self }
    }

    /// The same without its block, so that nothing is borrowed.
    pub fn without_block(self) -> Outcome<'static> {
        Outcome {
            block: None,
            notice: self.notice,
            sending: self.sending,
            reserving: self.reserving,
        }
    }
}

impl Sending {
    /// The frame, once the step is made.
    pub fn frame<'a>(self, record: &'a Record) -> Frame<'a> {
        let (quoted, body) = match self {
            Self::Signal(signal, quoted) => (quoted, Body::Signal(signal)),
            Self::Data(place) => (record.remote, data(record, place)),
            Self::Ack => {
                let count = record.handed_up;
                (record.remote, Body::Ack { count })
            }
        };
        Frame::new(record.local, quoted, body)
    }
}

/// The DATA of the waiting block in this place.
fn data<'a>(record: &'a Record, place: usize) -> Body<'a> {
    Body::Data {
        sequence: record.oldest() + place as u32,
        block: record.waiting.block(place),
    }
}

/// Block e is handed up, and told to the partner.
fn hand_up<'a>(record: &mut Record, block: Block<'a>) -> Outcome<'a> {
    record.hand_up();
    Outcome {
        block: Some(block),
        ..Outcome::send(Sending::Ack).with(Notice::BlockHandedUp)
    }
}

/// The end closes as it wanted to.
fn close_finished<'a>(record: &mut Record) -> Outcome<'a> {
    record.enter(State::Closed);
    Outcome::SILENT.with(Notice::CloseFinished)
}

/// Makes the step of a request or frame. A refusal changes nothing.
pub fn make<'a>(
    record: &mut Record,
    message: Message<'a>,
    up: &'a mut [u8; LONGEST_BLOCK],
) -> Result<Outcome<'a>, Refusal> {
    match message {
        Message::Request(request) => requests::make(record, request, up),
        Message::Frame(frame) => Ok(frames::make(record, frame)),
    }
}
