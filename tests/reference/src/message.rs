//! What a line carries: a frame or a request.

use crate::{Frame, Refusal, Request};

/// A frame or a request.
#[derive(Clone, Copy, Debug, PartialEq, Eq)]
pub enum Message<'a> {
    Frame(Frame<'a>),
    Request(Request<'a>),
}

impl<'a> Message<'a> {
    /// Questions 3 to 7 of a call that knows frames and requests.
    pub fn read(bytes: &'a [u8]) -> Result<Self, Refusal> {
        match Frame::read(bytes) {
            Err(Refusal::Kind) => Request::read(bytes).map(Self::Request),
            frame => frame.map(Self::Frame),
        }
    }
}

#[cfg(test)]
mod tests {
    use super::*;

    #[test]
    fn both_are_known() {
        let frame = [1, 0, 0, 0, 7, 0, 0, 0, 0];
        assert_eq!(
            Message::read(&frame),
            Frame::read(&frame).map(Message::Frame)
        );
        assert_eq!(
            Message::read(&[0x41]),
            Ok(Message::Request(Request::Listen))
        );
    }

    #[test]
    fn faults_of_both_are_found() {
        assert_eq!(Message::read(&[0x01]), Err(Refusal::FixedPart));
        assert_eq!(Message::read(&[0x40, 0x00]), Err(Refusal::FixedPart));
        assert_eq!(Message::read(&[0x44, 0]), Err(Refusal::Count));
        assert_eq!(
            Message::read(&[1, 0, 0, 0, 0, 0, 0, 0, 1]),
            Err(Refusal::Numbers)
        );
    }

    #[test]
    fn other_kinds_are_not_known() {
        assert_eq!(Message::read(&[]), Err(Refusal::Kind));
        for kind in [0x00, 0x0a, 0x3f, 0x47, 0x50, 0x51, 0x52, 0x80, 0xff] {
            assert_eq!(Message::read(&[kind]), Err(Refusal::Kind));
        }
    }
}
