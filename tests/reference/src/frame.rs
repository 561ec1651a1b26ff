//! Frames: what two ends exchange.

use crate::buffer::put;
use crate::{part, Block, Refusal};

/// The most bytes a frame has.
pub const LONGEST_FRAME: usize = 78;
/// The kind byte of DATA.
pub const DATA: u8 = 0x08;
/// The kind byte of ACK.
pub const ACK: u8 = 0x09;
/// The highest sequence number of DATA.
pub const LAST_SEQUENCE: u32 = 4294967294;

/// A frame.
#[derive(Clone, Copy, Debug, PartialEq, Eq)]
pub struct Frame<'a> {
    /// s, the sender's number.
    pub sender: u32,
    /// r, the number it quotes.
    pub quoted: u32,
    /// Its kind, and what the kind adds.
    pub body: Body<'a>,
}

/// The kind of a frame, and what it adds to the two numbers.
#[derive(Clone, Copy, Debug, PartialEq, Eq)]
pub enum Body<'a> {
    Signal(Signal),
    Data { sequence: u32, block: Block<'a> },
    Ack { count: u32 },
}

/// The kinds that add nothing to the two numbers, each with its kind byte.
#[derive(Clone, Copy, Debug, PartialEq, Eq)]
#[repr(u8)]
pub enum Signal {
    /// Call.
    Crao = 0x01,
    /// Answer.
    Crpo = 0x02,
    /// Opened.
    Crack = 0x03,
    /// Refusal.
    Rej = 0x04,
    /// Listen again.
    Reset = 0x05,
    /// Hang up.
    Dr = 0x06,
    /// Hang-up heard.
    Drack = 0x07,
}

impl Signal {
    /// All seven, in the order of their kind bytes.
    pub const ALL: [Self; 7] = [
        Self::Crao,
        Self::Crpo,
        Self::Crack,
        Self::Rej,
        Self::Reset,
        Self::Dr,
        Self::Drack,
    ];

    /// The signal of this kind byte.
    pub fn of(kind: u8) -> Result<Self, Refusal> {
        Self::ALL
            .into_iter()
            .find(|signal| *signal as u8 == kind)
            .ok_or(Refusal::Kind)
    }
}

impl<'a> Body<'a> {
    /// The first byte of the frame.
    pub fn kind(&self) -> u8 {
        match *self {
            Self::Signal(signal) => signal as u8,
            Self::Data { .. } => DATA,
            Self::Ack { .. } => ACK,
        }
    }

    /// Questions 4 to 6 of what follows the two numbers in a frame of this kind.
    fn read(kind: u8, bytes: &'a [u8]) -> Result<Self, Refusal> {
        match kind {
            DATA => {
                let (sequence, rest) = part::number(bytes)?;
                let block = Block::read(rest)?;
                Ok(Self::Data { sequence, block })
            }
            ACK => {
                let (count, rest) = part::number(bytes)?;
                part::end(rest)?;
                Ok(Self::Ack { count })
            }
            _ => {
                part::end(bytes)?;
                Signal::of(kind).map(Self::Signal)
            }
        }
    }

    /// Writes what follows the two numbers at the start of the buffer; answers its length.
    fn put(&self, out: &mut [u8]) -> usize {
        match *self {
            Self::Signal(_) => 0,
            Self::Data { sequence, block } => {
                let length = put(out, &sequence.to_be_bytes());
                length + block.put(&mut out[length..])
            }
            Self::Ack { count } => put(out, &count.to_be_bytes()),
        }
    }
}

impl<'a> Frame<'a> {
    /// The frame of these numbers and this body.
    pub fn new(sender: u32, quoted: u32, body: Body<'a>) -> Self {
        Self {
            sender,
            quoted,
            body,
        }
    }

    /// Questions 3 to 7 of a call that knows frames only.
    pub fn read(bytes: &'a [u8]) -> Result<Self, Refusal> {
        let (kind, rest) = part::kind(bytes)?;
        ask_kind(kind)?;
        let (sender, rest) = part::number(rest)?;
        let (quoted, rest) = part::number(rest)?;
        let body = Body::read(kind, rest)?;
        let frame = Self::new(sender, quoted, body);
        frame.ask_numbers()?;
        Ok(frame)
    }

    /// Writes the frame at the start of the buffer, which has room for it, and no other byte;
    /// answers its length.
    pub fn put(&self, out: &mut [u8]) -> usize {
        let mut length = put(out, &[self.body.kind()]);
        length += put(&mut out[length..], &self.sender.to_be_bytes());
        length += put(&mut out[length..], &self.quoted.to_be_bytes());
        length + self.body.put(&mut out[length..])
    }

    /// The frame in bytes.
    pub fn write(&self) -> Vec<u8> {
        let mut out = [0; LONGEST_FRAME];
        let length = self.put(&mut out);
        out[..length].to_vec()
    }

    /// The signal that the frame is, if it is neither DATA nor ACK.
    pub fn signal(&self) -> Option<Signal> {
        match self.body {
            Body::Signal(signal) => Some(signal),
            _ => None,
        }
    }

    /// Question 7: are the numbers ones that an end sends?
    fn ask_numbers(&self) -> Result<(), Refusal> {
        let signal = self.signal();
        let sender = self.sender >= 1 || matches!(signal, Some(Signal::Rej | Signal::Drack));
        let quoted = self.quoted >= 1 || signal == Some(Signal::Crao);
        let sequence = match self.body {
            Body::Data { sequence, .. } => sequence <= LAST_SEQUENCE,
            _ => true,
        };
        if !(sender && quoted && sequence) {
            return Err(Refusal::Numbers);
        }
        Ok(())
    }
}

/// Question 3: is it the kind of a frame?
fn ask_kind(kind: u8) -> Result<(), Refusal> {
    match kind {
        0x01..=0x09 => Ok(()),
        _ => Err(Refusal::Kind),
    }
}

#[cfg(test)]
mod tests {
    use super::*;

    const LAST: u32 = u32::MAX;

    fn signal(signal: Signal, sender: u32, quoted: u32) -> Frame<'static> {
        Frame::new(sender, quoted, Body::Signal(signal))
    }

    fn data(sender: u32, quoted: u32, sequence: u32, block: &[u8]) -> Frame<'_> {
        let block = Block::new(block).unwrap();
        Frame::new(sender, quoted, Body::Data { sequence, block })
    }

    fn ack(sender: u32, quoted: u32, count: u32) -> Frame<'static> {
        Frame::new(sender, quoted, Body::Ack { count })
    }

    fn assert_reads(frame: Frame) {
        assert_eq!(Frame::read(&frame.write()), Ok(frame));
    }

    fn assert_numbers_refused(frame: Frame) {
        assert_eq!(Frame::read(&frame.write()), Err(Refusal::Numbers));
    }

    #[test]
    fn the_bytes_stand_in_the_order_of_the_document() {
        let crao = signal(Signal::Crao, 7, 0);
        assert_eq!(crao.write(), [1, 0, 0, 0, 7, 0, 0, 0, 0]);
        let data = data(7, 1, 0, b"ab");
        assert_eq!(
            data.write(),
            [8, 0, 0, 0, 7, 0, 0, 0, 1, 0, 0, 0, 0, 2, 0x61, 0x62]
        );
        let ack = ack(1, 7, 0x0102_0304);
        assert_eq!(ack.write(), [9, 0, 0, 0, 1, 0, 0, 0, 7, 1, 2, 3, 4]);
    }

    #[test]
    fn kind_bytes_are_01_to_09() {
        assert_eq!(
            Signal::ALL.map(|signal| signal as u8),
            [1, 2, 3, 4, 5, 6, 7]
        );
        assert_eq!(data(1, 1, 1, b"a").body.kind(), 8);
        assert_eq!(ack(1, 1, 1).body.kind(), 9);
    }

    #[test]
    fn a_frame_written_reads_as_itself() {
        for kind in Signal::ALL {
            assert_reads(signal(kind, 1, LAST));
            assert_reads(signal(kind, LAST, 1));
        }
        assert_reads(data(1, 2, 0, b"a"));
        assert_reads(data(LAST, LAST, LAST - 1, &[7; 64]));
        assert_reads(ack(1, 2, 0));
        assert_reads(ack(LAST, LAST, LAST));
    }

    #[test]
    fn the_longest_frame_has_78_bytes() {
        assert_eq!(data(1, 1, 1, &[0; 64]).write().len(), LONGEST_FRAME);
    }

    #[test]
    fn other_kinds_are_not_known() {
        assert_eq!(Frame::read(&[]), Err(Refusal::Kind));
        for kind in (0x0a..=0xff).chain([0]) {
            assert_eq!(Frame::read(&[kind]), Err(Refusal::Kind));
            assert_eq!(Frame::read(&[kind; 9]), Err(Refusal::Kind));
        }
    }

    #[test]
    fn the_fixed_part_is_whole_and_ends_where_there_is_no_block() {
        let right_lengths = [9, 9, 9, 9, 9, 9, 9, 15, 13];
        for (kind, right) in (0x01..).zip(right_lengths) {
            for length in 1..=80 {
                let mut bytes = vec![1; length];
                bytes[0] = kind;
                let expected = match length {
                    _ if length == right => Ok(()),
                    14.. if kind == DATA => Err(Refusal::BlockLength),
                    _ => Err(Refusal::FixedPart),
                };
                assert_eq!(Frame::read(&bytes).map(drop), expected);
            }
        }
    }

    #[test]
    fn faulty_counts_and_blocks_of_data_are_refused() {
        let fixed = &data(1, 1, 1, b"a").write()[..13];
        let read = |count: u8, length: usize| {
            let mut bytes = [fixed, &[count]].concat();
            bytes.resize(14 + length, 0);
            Frame::read(&bytes).map(drop)
        };
        assert_eq!(read(1, 1), Ok(()));
        assert_eq!(read(64, 64), Ok(()));
        assert_eq!(read(0, 0), Err(Refusal::Count));
        assert_eq!(read(65, 65), Err(Refusal::Count));
        assert_eq!(read(65, 64), Err(Refusal::Count));
        assert_eq!(read(1, 0), Err(Refusal::BlockLength));
        assert_eq!(read(1, 2), Err(Refusal::BlockLength));
        assert_eq!(read(64, 63), Err(Refusal::BlockLength));
        assert_eq!(read(64, 65), Err(Refusal::BlockLength));
    }

    #[test]
    fn the_count_is_asked_before_the_numbers() {
        let mut bytes = data(0, 0, LAST, b"a").write();
        assert_eq!(Frame::read(&bytes), Err(Refusal::Numbers));
        bytes.push(0);
        assert_eq!(Frame::read(&bytes), Err(Refusal::BlockLength));
        bytes[13] = 0;
        assert_eq!(Frame::read(&bytes), Err(Refusal::Count));
    }

    #[test]
    fn only_rej_and_drack_may_have_sender_0() {
        for kind in Signal::ALL {
            match kind {
                Signal::Rej | Signal::Drack => assert_reads(signal(kind, 0, 1)),
                _ => assert_numbers_refused(signal(kind, 0, 1)),
            }
        }
        assert_numbers_refused(data(0, 1, 1, b"a"));
        assert_numbers_refused(ack(0, 1, 1));
    }

    #[test]
    fn only_crao_may_quote_0() {
        for kind in Signal::ALL {
            match kind {
                Signal::Crao => assert_reads(signal(kind, 1, 0)),
                _ => assert_numbers_refused(signal(kind, 1, 0)),
            }
            assert_numbers_refused(signal(kind, 0, 0));
        }
        assert_numbers_refused(data(1, 0, 1, b"a"));
        assert_numbers_refused(ack(1, 0, 1));
    }

    #[test]
    fn the_last_number_is_none_for_data_but_a_count_for_ack() {
        assert_reads(data(1, 1, LAST - 1, b"a"));
        assert_numbers_refused(data(1, 1, LAST, b"a"));
        assert_reads(ack(1, 1, LAST));
    }
}
