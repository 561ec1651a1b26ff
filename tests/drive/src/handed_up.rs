//! How often blocks come up, and how.

use cases::group::Score;
use reference::request::COLLECT;
use reference::Notice;

/// How many blocks came up as they arrived, and how many had been held.
#[derive(Clone, Copy, Debug, Default, PartialEq, Eq)]
pub struct HandedUp {
    pub arrived: u64,
    pub collected: u64,
}

impl HandedUp {
    /// This message was answered with this notice.
    pub fn see(&mut self, message: &[u8], notice: u8) {
        if notice == Notice::BlockHandedUp as u8 {
            match message {
                [COLLECT] => self.collected += 1,
                _ => self.arrived += 1,
            }
        }
    }

    /// Prints how many came up. A way in which none did is a failed case.
    pub fn report(&self) -> Score {
        let Self { arrived, collected } = *self;
        println!("blocks: {arrived} came up as they arrived, {collected} were collected");
        Score {
            passed: 0,
            failed: u64::from(arrived == 0) + u64::from(collected == 0),
        }
    }
}

#[cfg(test)]
mod tests {
    use super::*;

    #[test]
    fn blocks_are_told_apart_by_how_they_come_up() {
        let mut handed_up = HandedUp::default();
        assert_eq!(handed_up.report().failed, 2);
        for (message, notice) in [
            (&[0x08, 1][..], 5),
            (&[0x08, 1], 0),
            (&[0x46], 0),
            (&[0x41], 0),
        ] {
            handed_up.see(message, notice);
        }
        assert_eq!(handed_up.report().failed, 1);
        handed_up.see(&[0x46], 5);
        assert_eq!(handed_up.report().failed, 0);
        let right = HandedUp {
            arrived: 1,
            collected: 1,
        };
        assert_eq!(handed_up, right);
    }
}
