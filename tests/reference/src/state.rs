//! The states of an end.

/// The state of an end, with its byte in the record.
#[derive(Clone, Copy, Debug, PartialEq, Eq)]
#[repr(u8)]
pub enum State {
    Closed = 0,
    Listening = 1,
    /// Active opening.
    Calling = 2,
    /// Passive opening.
    Answering = 3,
    Open = 4,
    Closing = 5,
}

impl State {
    /// All six, in the order of their bytes.
    pub const ALL: [Self; 6] = [
        Self::Closed,
        Self::Listening,
        Self::Calling,
        Self::Answering,
        Self::Open,
        Self::Closing,
    ];

    /// The state of this byte, if it is 0 to 5.
    pub fn of(byte: u8) -> Option<Self> {
        Self::ALL.get(usize::from(byte)).copied()
    }
}

#[cfg(test)]
mod tests {
    use super::*;

    #[test]
    fn states_are_0_to_5() {
        assert_eq!(State::ALL.map(|state| state as u8), [0, 1, 2, 3, 4, 5]);
        for byte in 0..=u8::MAX {
            assert_eq!(State::of(byte).is_some(), byte <= 5);
            assert!(State::of(byte).is_none_or(|state| state as u8 == byte));
        }
    }
}
