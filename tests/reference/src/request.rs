//! Requests: what the host asks of its end.

use crate::{part, Block, Refusal};

/// The kind byte of connect.
pub const CONNECT: u8 = 0x40;
/// The kind byte of listen.
pub const LISTEN: u8 = 0x41;
/// The kind byte of end listening.
pub const END_LISTENING: u8 = 0x42;
/// The kind byte of close.
pub const CLOSE: u8 = 0x43;
/// The kind byte of send.
pub const SEND: u8 = 0x44;
/// The kind byte of timer.
pub const TIMER: u8 = 0x45;
/// The kind byte of collect.
pub const COLLECT: u8 = 0x46;

/// A request with its block, if it has one.
#[derive(Clone, Copy, Debug, PartialEq, Eq)]
pub enum Request<'a> {
    Connect,
    Listen,
    EndListening,
    Close,
    Send(Block<'a>),
    Timer,
    Collect,
}

impl<'a> Request<'a> {
    /// Questions 3 to 6 of a call that knows requests only.
    pub fn read(bytes: &'a [u8]) -> Result<Self, Refusal> {
        let (kind, rest) = part::kind(bytes)?;
        let request = match kind {
            CONNECT => Self::Connect,
            LISTEN => Self::Listen,
            END_LISTENING => Self::EndListening,
            CLOSE => Self::Close,
            SEND => return Block::read(rest).map(Self::Send),
            TIMER => Self::Timer,
            COLLECT => Self::Collect,
            _ => return Err(Refusal::Kind),
        };
        part::end(rest)?;
        Ok(request)
    }

    /// The first byte of the request.
    pub fn kind(&self) -> u8 {
        match self {
            Self::Connect => CONNECT,
            Self::Listen => LISTEN,
            Self::EndListening => END_LISTENING,
            Self::Close => CLOSE,
            Self::Send(_) => SEND,
            Self::Timer => TIMER,
            Self::Collect => COLLECT,
        }
    }
}

#[cfg(test)]
mod tests {
    use super::*;

    const BARE: [(u8, Request); 6] = [
        (0x40, Request::Connect),
        (0x41, Request::Listen),
        (0x42, Request::EndListening),
        (0x43, Request::Close),
        (0x45, Request::Timer),
        (0x46, Request::Collect),
    ];

    #[test]
    fn requests_without_a_block_are_one_byte() {
        for (kind, request) in BARE {
            assert_eq!(Request::read(&[kind]), Ok(request));
            assert_eq!(request.kind(), kind);
            assert_eq!(Request::read(&[kind, 0]), Err(Refusal::FixedPart));
        }
    }

    #[test]
    fn send_carries_a_block() {
        for length in [1, 64] {
            let mut bytes = vec![0x44, length];
            bytes.resize(2 + usize::from(length), 0x61);
            let request = Request::read(&bytes).unwrap();
            assert_eq!(request, Request::Send(Block::new(&bytes[2..]).unwrap()));
            assert_eq!(request.kind(), 0x44);
        }
    }

    #[test]
    fn a_faulty_send_is_refused() {
        assert_eq!(Request::read(&[0x44]), Err(Refusal::FixedPart));
        assert_eq!(Request::read(&[0x44, 0]), Err(Refusal::Count));
        assert_eq!(Request::read(&[0x44, 65]), Err(Refusal::Count));
        assert_eq!(Request::read(&[0x44, 1]), Err(Refusal::BlockLength));
        assert_eq!(
            Request::read(&[0x44, 1, 0x61, 0x62]),
            Err(Refusal::BlockLength)
        );
    }

    #[test]
    fn other_kinds_are_not_known() {
        assert_eq!(Request::read(&[]), Err(Refusal::Kind));
        for kind in (0..=0x3f).chain(0x47..=0xff) {
            assert_eq!(Request::read(&[kind]), Err(Refusal::Kind));
            assert_eq!(Request::read(&[kind, 0]), Err(Refusal::Kind));
        }
    }
}
