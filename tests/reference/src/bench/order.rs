//! What a bench line asks for.

use super::Side;
use crate::{part, Refusal};

/// The first byte of a line with a request of A.
pub const REQUEST_A: u8 = 0x50;
/// The first byte of a line with a request of B.
pub const REQUEST_B: u8 = 0x51;
/// The first byte of a line that delivers a frame.
pub const DELIVER: u8 = 0x52;
/// The first byte of a line that restarts an end.
pub const RESTART: u8 = 0x53;

/// A bench line.
#[derive(Clone, Copy, Debug, PartialEq, Eq)]
pub enum Order<'a> {
    /// This end's request, which is not read yet.
    Request(Side, &'a [u8]),
    /// The delivery of the frame of this number.
    Delivery(usize),
    /// The restart of this end.
    Restart(Side),
}

impl<'a> Order<'a> {
    /// Questions 3 and 4 of the line, as far as they concern its first byte, a delivery and a
    /// restart.
    pub fn read(line: &'a [u8]) -> Result<Self, Refusal> {
        let (kind, rest) = part::kind(line)?;
        match kind {
            REQUEST_A => Ok(Self::Request(Side::A, rest)),
            REQUEST_B => Ok(Self::Request(Side::B, rest)),
            DELIVER => number(rest).map(Self::Delivery),
            RESTART => end(rest).map(Self::Restart),
            _ => Err(Refusal::Kind),
        }
    }
}

/// Question 4 of a delivery: are there 2 bytes, and nothing more? Success gives their number.
fn number(bytes: &[u8]) -> Result<usize, Refusal> {
    let bytes = bytes.try_into().map_err(|_| Refusal::FixedPart)?;
    Ok(usize::from(u16::from_be_bytes(bytes)))
}

/// Questions 3 and 4 of a restart: is its end byte 50 or 51, and is there nothing more? Without any
/// end byte its fixed part is not whole.
fn end(bytes: &[u8]) -> Result<Side, Refusal> {
    let (&lead, rest) = bytes.split_first().ok_or(Refusal::FixedPart)?;
    let side = Side::of_lead(lead).ok_or(Refusal::Kind)?;
    part::end(rest)?;
    Ok(side)
}

#[cfg(test)]
mod tests {
    use super::*;

    #[test]
    fn the_first_byte_names_the_end() {
        let [a, b] = Side::BOTH;
        assert_eq!(Order::read(&[0x50, 1, 2]), Ok(Order::Request(a, &[1, 2])));
        assert_eq!(Order::read(&[0x51, 0x40]), Ok(Order::Request(b, &[0x40])));
        assert_eq!(Order::read(&[0x50]), Ok(Order::Request(a, &[])));
    }

    #[test]
    fn a_delivery_has_a_number_of_2_bytes() {
        for number in [0, 1, 255, 256, 511, 512, 65_535] {
            let [high, low] = (number as u16).to_be_bytes();
            let line = [0x52, high, low, 0];
            assert_eq!(Order::read(&line[..3]), Ok(Order::Delivery(number)));
            for wrong in [&line[..1], &line[..2], &line[..4]] {
                assert_eq!(Order::read(wrong), Err(Refusal::FixedPart));
            }
        }
    }

    #[test]
    fn a_restart_has_an_end_byte() {
        assert_eq!(Order::read(&[0x53, 0x50]), Ok(Order::Restart(Side::A)));
        assert_eq!(Order::read(&[0x53, 0x51]), Ok(Order::Restart(Side::B)));
        assert_eq!(Order::read(&[0x53]), Err(Refusal::FixedPart));
        for lead in [0x50, 0x51] {
            for more in [&[0][..], &[0x50], &[0x51], &[0, 0], &[0x40]] {
                let line = [&[0x53, lead], more].concat();
                assert_eq!(Order::read(&line), Err(Refusal::FixedPart));
            }
        }
    }

    #[test]
    fn another_end_byte_is_not_known_whatever_follows() {
        for lead in (0..=0x4f).chain(0x52..=0xff) {
            for more in [&[][..], &[0], &[0x50], &[0, 0]] {
                let line = [&[0x53, lead], more].concat();
                assert_eq!(Order::read(&line), Err(Refusal::Kind));
            }
        }
    }

    #[test]
    fn other_kinds_are_not_known() {
        assert_eq!(Order::read(&[]), Err(Refusal::Kind));
        for kind in (0..=0x4f).chain(0x54..=0xff) {
            assert_eq!(Order::read(&[kind]), Err(Refusal::Kind));
            assert_eq!(Order::read(&[kind, 0, 0]), Err(Refusal::Kind));
        }
    }
}
