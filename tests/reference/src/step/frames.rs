//! The step table's frames. In each function s is the frame's sender.

use super::{close_finished, hand_up, Outcome, Sending};
use crate::frame::Body;
use crate::frame::Signal::{Crack, Crao, Crpo, Dr, Drack, Rej, Reset};
use crate::record::Record;
use crate::{Block, Frame, Notice, State};

/// The step of a frame that was read.
pub fn make<'a>(record: &mut Record, frame: Frame<'a>) -> Outcome<'a> {
    if frame.sender < record.remote {
        return Outcome::SILENT;
    }
    match record.state {
        State::Closed => closed(frame),
        State::Listening => listening(record, frame),
        State::Calling => calling(record, frame),
        State::Answering => answering(record, frame),
        State::Open => open(record, frame),
        State::Closing => closing(record, frame),
    }
}

/// What belongs to a connection is rejected, so that a partner that still has one is told.
fn closed<'a>(frame: Frame) -> Outcome<'a> {
    let s = frame.sender;
    match frame.body {
        Body::Signal(Crao | Crpo | Crack) => Outcome::signal(Rej, s),
        Body::Data { .. } | Body::Ack { .. } => Outcome::signal(Rej, s),
        Body::Signal(Dr) => Outcome::signal(Drack, s),
        Body::Signal(Rej | Reset | Drack) => Outcome::SILENT,
    }
}

fn listening<'a>(record: &mut Record, frame: Frame) -> Outcome<'a> {
    let s = frame.sender;
    match frame.signal() {
        Some(Crao) => {
            record.remote = s;
            record.enter(State::Answering);
            Outcome::signal(Crpo, s)
        }
        Some(Crpo) => Outcome::signal(Reset, s),
        Some(Dr) => Outcome::signal(Drack, s),
        _ => Outcome::SILENT,
    }
}

fn calling<'a>(record: &mut Record, frame: Frame) -> Outcome<'a> {
    let s = frame.sender;
    let quotes_us = frame.quoted == record.local;
    match frame.signal() {
        Some(Crao | Crpo) if quotes_us => {
            connected(record, s);
            Outcome::signal(Crack, s).with(Notice::Connected)
        }
        Some(Crao) => {
            record.remote = s;
            Outcome::signal(Crao, s)
        }
        Some(Crack) if quotes_us => {
            connected(record, s);
            Outcome::SILENT.with(Notice::Connected)
        }
        Some(Rej) if quotes_us => {
            record.enter(State::Closed);
            Outcome::SILENT.with(Notice::Rejected)
        }
        Some(Dr) if quotes_us => hung_up(record, s, Notice::Rejected),
        Some(Dr) => Outcome::signal(Drack, s),
        _ => Outcome::SILENT,
    }
}

fn answering<'a>(record: &mut Record, frame: Frame) -> Outcome<'a> {
    let s = frame.sender;
    let quotes_us = frame.quoted == record.local;
    match frame.signal() {
        Some(Crao) => {
            record.remote = s;
            Outcome::signal(Crpo, s)
        }
        Some(Crpo) => Outcome::signal(Reset, s),
        Some(Crack) if quotes_us && s == record.remote => {
            connected(record, s);
            Outcome::SILENT.with(Notice::Connected)
        }
        Some(Rej | Reset) if quotes_us => {
            record.enter(State::Listening);
            Outcome::SILENT
        }
        Some(Dr) if quotes_us => hung_up(record, s, Notice::ClosedByPartner),
        Some(Dr) => Outcome::signal(Drack, s),
        _ => Outcome::SILENT,
    }
}

/// Only frames of this connection count, and a REJ of it, which a partner that restarted sends with
/// a higher number.
fn open<'a>(record: &mut Record, frame: Frame<'a>) -> Outcome<'a> {
    let s = frame.sender;
    if frame.quoted != record.local {
        return Outcome::SILENT;
    }
    if frame.signal() == Some(Rej) {
        record.enter(State::Closed);
        return Outcome::SILENT.with(Notice::ClosedByPartner);
    }
    if s != record.remote {
        return Outcome::SILENT;
    }
    match frame.body {
        Body::Signal(Crao | Crpo) => Outcome::signal(Crack, s),
        Body::Signal(Dr) => hung_up(record, s, Notice::ClosedByPartner),
        Body::Signal(_) => Outcome::SILENT,
        Body::Data { sequence, block } => data(record, sequence, block),
        Body::Ack { count } => acknowledged(record, count),
    }
}

fn closing<'a>(record: &mut Record, frame: Frame) -> Outcome<'a> {
    let s = frame.sender;
    let quotes_us = frame.quoted == record.local;
    let is_newer = s > record.remote;
    match frame.signal() {
        Some(Dr) if is_newer || quotes_us => hung_up(record, s, Notice::CloseFinished),
        Some(Drack | Rej) if quotes_us => close_finished(record),
        Some(Crao | Crpo) if is_newer => close_finished(record),
        _ => Outcome::SILENT,
    }
}

/// The connection with this partner opens.
fn connected(record: &mut Record, partner: u32) {
    record.remote = partner;
    record.enter(State::Open);
}

/// The end closes on a DR, which it answers.
fn hung_up<'a>(record: &mut Record, s: u32, notice: Notice) -> Outcome<'a> {
    record.enter(State::Closed);
    Outcome::signal(Drack, s).with(notice)
}

/// The awaited block is handed up, an early one held; every DATA is acknowledged.
fn data<'a>(record: &mut Record, sequence: u32, block: Block<'a>) -> Outcome<'a> {
    match sequence.checked_sub(record.handed_up) {
        Some(0) => return hand_up(record, block),
        Some(above) => record.held.hold(above, block),
        None => {}
    }
    Outcome::send(Sending::Ack)
}

/// The blocks before this number leave, if it is new and not beyond those accepted.
fn acknowledged<'a>(record: &mut Record, count: u32) -> Outcome<'a> {
    let oldest = record.oldest();
    if oldest < count && count <= record.accepted {
        record.waiting.remove_oldest((count - oldest) as usize);
    }
    Outcome::SILENT
}
