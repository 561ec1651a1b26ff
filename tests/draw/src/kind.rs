//! The kinds of requests and frames, with the names that the document gives them.

use reference::{Message, Refusal};

/// A kind of request or frame.
#[derive(Clone, Copy, Debug, PartialEq, Eq)]
pub struct Kind {
    /// Its first byte.
    pub byte: u8,
    pub name: &'static str,
    pub form: Form,
}

/// What follows the first byte.
#[derive(Clone, Copy, Debug, PartialEq, Eq)]
pub enum Form {
    /// A request: nothing.
    Request,
    /// A request: a block.
    BlockRequest,
    /// A frame: s and r.
    Signal,
    /// A frame: s, r, a sequence number and a block.
    Data,
    /// A frame: s, r and a count.
    Ack,
}

impl Form {
    pub fn is_request(self) -> bool {
        matches!(self, Self::Request | Self::BlockRequest)
    }

    pub fn has_block(self) -> bool {
        matches!(self, Self::BlockRequest | Self::Data)
    }
}

/// All kinds in the order of the table: the requests, then the frames, each by their bytes.
const KINDS: [Kind; 16] = [
    kind(0x40, "connect", Form::Request),
    kind(0x41, "listen", Form::Request),
    kind(0x42, "end listening", Form::Request),
    kind(0x43, "close", Form::Request),
    kind(0x44, "send", Form::BlockRequest),
    kind(0x45, "timer", Form::Request),
    kind(0x46, "collect", Form::Request),
    kind(0x01, "CRAO", Form::Signal),
    kind(0x02, "CRPO", Form::Signal),
    kind(0x03, "CRACK", Form::Signal),
    kind(0x04, "REJ", Form::Signal),
    kind(0x05, "RESET", Form::Signal),
    kind(0x06, "DR", Form::Signal),
    kind(0x07, "DRACK", Form::Signal),
    kind(0x08, "DATA", Form::Data),
    kind(0x09, "ACK", Form::Ack),
];

const fn kind(byte: u8, name: &'static str, form: Form) -> Kind {
    Kind { byte, name, form }
}

/// All kinds in the order of the table, once it is sure that they are all that the reference
/// knows: a kind that is new there must not be missing here.
pub fn all() -> Result<&'static [Kind], String> {
    for byte in 0..=u8::MAX {
        let is_known = Message::read(&[byte]) != Err(Refusal::Kind);
        if is_known != of(byte).is_ok() {
            return Err(format!(
                "kind {byte:02x} is known to the reference or has a name here, but not both"
            ));
        }
    }
    Ok(&KINDS)
}

/// The kind of this first byte.
pub fn of(byte: u8) -> Result<Kind, String> {
    let found = KINDS.into_iter().find(|kind| kind.byte == byte);
    found.ok_or_else(|| format!("kind {byte:02x} has no name"))
}

#[cfg(test)]
mod tests {
    use super::*;

    #[test]
    fn every_kind_of_the_reference_has_a_name() {
        assert_eq!(all().map(<[Kind]>::len), Ok(16));
    }

    #[test]
    fn requests_stand_before_frames_and_bytes_rise() {
        let place = |kind: &Kind| (!kind.form.is_request(), kind.byte);
        assert!(KINDS.is_sorted_by_key(place));
    }

    #[test]
    fn an_unknown_byte_has_no_kind() {
        assert_eq!(of(0x07).map(|kind| kind.name), Ok("DRACK"));
        assert!(of(0x0a).is_err());
    }
}
