//! The step table's requests.

use super::{close_finished, hand_up, Outcome, Sending};
use crate::block::LONGEST_BLOCK;
use crate::frame::Signal;
use crate::record::Record;
use crate::{page, Block, Refusal, Request, State};

/// Questions 8 to 10 of a request; then its step. A block that is collected is copied up.
pub fn make<'a>(
    record: &mut Record,
    request: Request,
    up: &'a mut [u8; LONGEST_BLOCK],
) -> Result<Outcome<'a>, Refusal> {
    match request {
        Request::Connect => connect(record),
        Request::Listen => listen(record),
        Request::EndListening => end_listening(record),
        Request::Close => close(record),
        Request::Send(block) => send(record, block),
        Request::Timer => Ok(timer(record)),
        Request::Collect => collect(record, up),
    }
}

fn connect<'a>(record: &mut Record) -> Result<Outcome<'a>, Refusal> {
    let reserving = begin(record, State::Calling)?;
    Ok(Outcome::signal(Signal::Crao, 0).reserve(reserving))
}

fn listen<'a>(record: &mut Record) -> Result<Outcome<'a>, Refusal> {
    let reserving = begin(record, State::Listening)?;
    Ok(Outcome::SILENT.reserve(reserving))
}

fn end_listening<'a>(record: &mut Record) -> Result<Outcome<'a>, Refusal> {
    ask_state(record, State::Listening)?;
    record.enter(State::Closed);
    Ok(Outcome::SILENT)
}

/// A call hung up before any partner was heard is over at once: there is no number to quote in DR.
fn close<'a>(record: &mut Record) -> Result<Outcome<'a>, Refusal> {
    match record.state {
        State::Calling if record.remote == 0 => Ok(close_finished(record)),
        State::Calling | State::Open => {
            record.enter(State::Closing);
            Ok(Outcome::signal(Signal::Dr, record.remote))
        }
        _ => Err(Refusal::State),
    }
}

fn send<'a>(record: &mut Record, block: Block) -> Result<Outcome<'a>, Refusal> {
    ask_state(record, State::Open)?;
    let accepted = next(record.accepted, u32::MAX)?;
    let place = record.waiting.count();
    record.waiting.push(block)?;
    record.accepted = accepted;
    Ok(Outcome::send(Sending::Data(place)))
}

/// Sends again what the partner may have missed.
fn timer<'a>(record: &Record) -> Outcome<'a> {
    match record.state {
        State::Closed | State::Listening => Outcome::SILENT,
        State::Calling => Outcome::signal(Signal::Crao, record.remote),
        State::Answering => Outcome::signal(Signal::Crpo, record.remote),
        State::Open if record.waiting.count() == 0 => Outcome::SILENT,
        State::Open => Outcome::send(Sending::Data(0)),
        State::Closing => Outcome::signal(Signal::Dr, record.remote),
    }
}

/// Hands up block e if it is held.
fn collect<'a>(
    record: &mut Record,
    up: &'a mut [u8; LONGEST_BLOCK],
) -> Result<Outcome<'a>, Refusal> {
    ask_state(record, State::Open)?;
    let Some(block) = record.held.next() else {
        return Ok(Outcome::SILENT);
    };
    let block = block.copied(up);
    Ok(hand_up(record, block))
}

/// A closed end, which has nothing to clear, begins a new incarnation in this state. Gives the byte
/// of the page to reserve, if its number needs one; no byte of the record is written before.
fn begin(record: &mut Record, state: State) -> Result<Option<usize>, Refusal> {
    ask_state(record, State::Closed)?;
    let number = next(record.local, page::LAST_NUMBER)?;
    let reserving = page::next(record.local);
    record.local = number;
    record.state = state;
    Ok(reserving)
}

/// Question 8: is the end in this state?
fn ask_state(record: &Record, state: State) -> Result<(), Refusal> {
    if record.state != state {
        return Err(Refusal::State);
    }
    Ok(())
}

/// Question 9: is a number left up to the last one? Success gives it.
fn next(number: u32, last: u32) -> Result<u32, Refusal> {
    if number >= last {
        return Err(Refusal::NumbersUsedUp);
    }
    Ok(number + 1)
}
