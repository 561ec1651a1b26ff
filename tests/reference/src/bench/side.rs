//! The two ends of a bench.

use super::{REQUEST_A, REQUEST_B};

/// One of the two ends, with its sender byte in the book.
#[derive(Clone, Copy, Debug, Default, PartialEq, Eq)]
#[repr(u8)]
pub enum Side {
    #[default]
    A = 0,
    B = 1,
}

impl Side {
    /// Both, in the order of their bytes.
    pub const BOTH: [Self; 2] = [Self::A, Self::B];

    /// The end of this sender byte, if it is 0 or 1.
    pub fn of(byte: u8) -> Option<Self> {
        Self::BOTH.get(usize::from(byte)).copied()
    }

    /// The other end.
    pub fn other(self) -> Self {
        match self {
            Self::A => Self::B,
            Self::B => Self::A,
        }
    }

    /// The first byte of a line with its request, and of an answer line about it.
    pub fn lead(self) -> u8 {
        match self {
            Self::A => REQUEST_A,
            Self::B => REQUEST_B,
        }
    }

    /// The end of this byte at the start of a line with a request, if it is 50 or 51.
    pub fn of_lead(lead: u8) -> Option<Self> {
        Self::BOTH.into_iter().find(|side| side.lead() == lead)
    }

    /// Which of two things is this end's.
    pub fn index(self) -> usize {
        self as usize
    }
}

#[cfg(test)]
mod tests {
    use super::*;

    #[test]
    fn sender_bytes_are_0_and_1() {
        assert_eq!(Side::of(0), Some(Side::A));
        assert_eq!(Side::of(1), Some(Side::B));
        for byte in 2..=u8::MAX {
            assert_eq!(Side::of(byte), None);
        }
    }

    #[test]
    fn each_is_the_other_of_the_other() {
        for side in Side::BOTH {
            assert_ne!(side.other(), side);
            assert_eq!(side.other().other(), side);
            assert_eq!(Side::BOTH[side.index()], side);
        }
    }

    #[test]
    fn leads_are_50_and_51() {
        assert_eq!(Side::BOTH.map(Side::lead), [0x50, 0x51]);
        for byte in 0..=u8::MAX {
            let side = Side::of_lead(byte);
            assert_eq!(side.is_some(), (0x50..=0x51).contains(&byte));
            assert!(side.is_none_or(|side| side.lead() == byte));
        }
    }
}
