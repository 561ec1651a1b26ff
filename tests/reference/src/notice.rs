//! Notices: what a step tells the host.

/// A notice, with its number.
#[derive(Clone, Copy, Debug, Default, PartialEq, Eq)]
#[repr(u8)]
pub enum Notice {
    #[default]
    None = 0,
    Connected = 1,
    Rejected = 2,
    ClosedByPartner = 3,
    CloseFinished = 4,
    BlockHandedUp = 5,
}
