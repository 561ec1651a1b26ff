//! The document's names of states and notices.

use reference::State;

/// The name of a state.
pub fn state(state: State) -> &'static str {
    match state {
        State::Closed => "closed",
        State::Listening => "listening",
        State::Calling => "calling",
        State::Answering => "answering",
        State::Open => "open",
        State::Closing => "closing",
    }
}

/// A notice with its number, such as "1 connected"; nothing where there is none.
pub fn notice(number: u8) -> Result<&'static str, String> {
    match number {
        0 => Ok(""),
        1 => Ok("1 connected"),
        2 => Ok("2 rejected"),
        3 => Ok("3 closed by partner"),
        4 => Ok("4 close finished"),
        5 => Ok("5 block handed up"),
        _ => Err(format!("notice {number} has no name")),
    }
}
