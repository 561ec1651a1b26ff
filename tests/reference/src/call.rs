//! The calls of one end, on buffers that the caller lends.

use crate::block::LONGEST_BLOCK;
use crate::buffer::{start, start_mut};
use crate::frame::LONGEST_FRAME;
use crate::page::{self, PAGE};
use crate::record::{self, Record, RECORD};
use crate::step::{self, Outcome};
use crate::{refusal, Block, Frame, Message, Refusal, Request};

/// What a call answers.
#[derive(Clone, Copy, Debug, PartialEq, Eq)]
pub struct Answer<'a> {
    /// 0 for success, else the number of the question that refused the call.
    pub number: u8,
    /// The record's state byte after the call; 0 if the record is too short.
    pub state: u8,
    pub notice: u8,
    /// L after the call; 0 if the record is too short.
    pub local: u32,
    /// D after the call; 0 if the record is too short.
    pub remote: u32,
    /// The length of the frame written at the start of the buffer for it, 0 for none.
    pub sent: usize,
    /// The block handed up: part of the received frame, or at the start of the buffer lent for it.
    pub block: Option<Block<'a>>,
}

impl Answer<'_> {
    /// The answer of a refused call, with the record as it stands.
    pub fn refused(record: &[u8], refusal: Refusal) -> Self {
        Self::silent(record, refusal.number())
    }

    /// This number and the record as it stands; nothing is told, sent or handed up.
    pub fn silent(record: &[u8], number: u8) -> Self {
        let (state, local, remote) = record::summary(record);
        Self {
            number,
            state,
            notice: 0,
            local,
            remote,
            sent: 0,
            block: None,
        }
    }
}

/// The end comes back after a loss of power: questions 11 and 15, then the record is made anew from
/// the page alone, closed with the last number that the page reserves. What the record was is not
/// looked at, and the page not written. With a new page the end is a fresh one.
pub fn restart(record: &mut [u8], page: &[u8]) -> Result<(), Refusal> {
    let record = start_mut(record)?;
    let local = page::restarted(start(page)?)?;
    record::restart(record, local);
    Ok(())
}

/// A request of the host: questions 11, 12, 15, 3 to 6 and 8 to 10, then its step. A block that it
/// collects is copied to the start of the second buffer.
pub fn request<'a>(
    record: &mut [u8],
    page: &mut [u8],
    request: &[u8],
    out: &mut [u8],
    up: &'a mut [u8],
) -> Answer<'a> {
    let made = reserving(record, page, out, up, |record, up| {
        step::request(record, Request::read(request)?, up)
    });
    answer(record, made)
}

/// A frame that arrives: questions 11, 12, 15 and 3 to 7, then its step, which begins no
/// incarnation.
pub fn receive<'a>(record: &mut [u8], page: &[u8], frame: &'a [u8], out: &mut [u8]) -> Answer<'a> {
    let made = lent(record, page, out).and_then(|(record, out)| {
        make(record, out, |record| {
            Ok(step::receive(record, Frame::read(frame)?))
        })
    });
    answer(record, made)
}

/// A request or a frame: questions 11, 12, 15 and 3 to 10, then its step.
pub fn either<'a>(
    record: &mut [u8],
    page: &mut [u8],
    message: &'a [u8],
    out: &mut [u8],
    up: &'a mut [u8],
) -> Answer<'a> {
    let made = reserving(record, page, out, up, |record, up| {
        step::make(record, Message::read(message)?, up)
    });
    answer(record, made)
}

/// How an end stands, which is what an empty line asks: questions 11, 12 and 15, then the state and
/// the numbers. Nothing is sent, told or changed.
pub fn standing(record: &[u8], page: &[u8]) -> Answer<'static> {
    let asked = start(record).and_then(|record| {
        let page = start(page)?;
        record::ask_sound(record)?;
        page::ask(page, record::local(record))
    });
    Answer::silent(record, refusal::number(asked))
}

/// Room for a frame.
type Out = [u8; LONGEST_FRAME];
/// What a call did, and the length of the frame sent.
pub type Made<'a> = Result<(Outcome<'a>, usize), Refusal>;

/// The answer of a call that left this record.
pub fn answer<'a>(record: &[u8], made: Made<'a>) -> Answer<'a> {
    match made {
        Ok((outcome, sent)) => Answer {
            notice: outcome.notice as u8,
            sent,
            block: outcome.block,
            ..Answer::silent(record, 0)
        },
        Err(refusal) => Answer::refused(record, refusal),
    }
}

/// This step with its own questions; then its frame and its record are written.
pub fn make<'a>(
    mut record: Record,
    out: &mut Out,
    step: impl FnOnce(&mut Record) -> Result<Outcome<'a>, Refusal>,
) -> Made<'a> {
    let outcome = step(&mut record)?;
    let sent = match outcome.sending {
        Some(sending) => sending.frame(&record).put(out),
        None => 0,
    };
    record.write();
    Ok((outcome, sent))
}

/// Questions 11, 12 and 15, then this step, which may begin an incarnation. The byte of the page
/// that reserves its number is stored first.
fn reserving<'a>(
    record: &mut [u8],
    page: &mut [u8],
    out: &mut [u8],
    up: &'a mut [u8],
    step: impl FnOnce(&mut Record, &'a mut [u8; LONGEST_BLOCK]) -> Result<Outcome<'a>, Refusal>,
) -> Made<'a> {
    let up = start_mut(up)?;
    let (record, out) = lent(record, page, out)?;
    make(record, out, |record| {
        let outcome = step(record, up)?;
        if let Some(place) = outcome.reserving {
            page::reserve(page, place);
        }
        Ok(outcome)
    })
}

/// Questions 11, 12 and 15 of what is lent to every call that makes a step.
fn lent<'r, 'o>(
    record: &'r mut [u8],
    page: &[u8],
    out: &'o mut [u8],
) -> Result<(Record<'r>, &'o mut Out), Refusal> {
    let record = start_mut::<RECORD>(record)?;
    let page = start::<PAGE>(page)?;
    let out = start_mut(out)?;
    let record = Record::read(record)?;
    page::ask(page, record.local)?;
    Ok((record, out))
}
