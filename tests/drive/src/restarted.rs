//! In which states ends restarted.

use cases::coverage;
use cases::group::Score;
use reference::bench::Side;
use reference::record::RECORD;
use reference::State;
use std::collections::BTreeSet;

/// The restarts so far.
#[derive(Default)]
pub struct Restarted(BTreeSet<Sort>);

/// A restart.
#[derive(Clone, Copy, Debug, PartialEq, Eq, PartialOrd, Ord)]
struct Sort {
    /// The end's sender byte.
    end: u8,
    /// The state that it was in.
    state: u8,
}

impl Restarted {
    /// This end restarts, and had this record.
    pub fn see(&mut self, side: Side, record: &[u8; RECORD]) {
        self.0.insert(Sort {
            end: side as u8,
            state: record[0],
        });
    }

    /// Prints how many sorts of restarts came. Each one that is missing is a failed case.
    pub fn report(&self) -> Score {
        let ends = Side::BOTH.map(|side| side as u8);
        let states = State::ALL.map(|state| state as u8);
        let all = ends.into_iter().flat_map(|end| {
            let sort = move |state| Sort { end, state };
            states.map(sort)
        });
        let all: Vec<_> = all.collect();
        coverage::report("restarts", &all, &self.0)
    }
}

#[cfg(test)]
mod tests {
    use super::*;

    #[test]
    fn either_end_restarts_in_six_states() {
        let mut restarted = Restarted::default();
        assert_eq!(restarted.report().failed, 12);
        let mut record = [0; RECORD];
        for side in [Side::A, Side::B, Side::B] {
            restarted.see(side, &record);
        }
        assert_eq!(restarted.report().failed, 10);
        record[0] = State::Open as u8;
        restarted.see(Side::A, &record);
        assert_eq!(restarted.report().failed, 9);
    }
}
