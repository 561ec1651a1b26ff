//! Sessions in which most calls are hung up, many before they open, while frames about them are
//! still on their way.

use crate::script::Script;
use crate::sessions::session_of;
use cases::random::Random;
use cases::sample::{block, message};
use reference::request::{CLOSE, CONNECT, END_LISTENING, LISTEN, SEND, TIMER};
use reference::State;

const SESSIONS: u64 = 60;
/// So many calls have the two ends of each.
const CALLS: usize = 500;

/// The scripts of all sessions, two of each.
pub fn scripts() -> impl Iterator<Item = Script> {
    (900..900 + SESSIONS).flat_map(|seed| session_of(seed, CALLS, request))
}

/// A request that calls or hangs up; now and then a close in any state.
pub fn request(random: &mut Random, state: State) -> Vec<u8> {
    let kind = match (state, random.within(0..=15)) {
        (_, 0) => CLOSE,
        (State::Closed, 1..=12) => CONNECT,
        (State::Closed, _) => LISTEN,
        (State::Listening, 1..=5) => END_LISTENING,
        (State::Calling | State::Open, 1..=4) => CLOSE,
        (State::Open, 5..=12) => SEND,
        _ => TIMER,
    };
    message(kind, &[], &block(random))
}

#[cfg(test)]
mod tests {
    use super::*;
    use crate::bench;
    use crate::reference_program::{meetings, Meeting, ReferenceProgram};
    use cases::records::Numbers;
    use reference::bench::program::BenchProgram;
    use reference::program::LineProgram;
    use std::collections::BTreeSet;

    /// The ends that are asked to close: which of the two, its state, and whether it knows a
    /// partner.
    fn closes<P: ReferenceProgram>(
        scripts: impl Iterator<Item = Script>,
    ) -> BTreeSet<(usize, u8, bool)> {
        let meetings = scripts.flat_map(|script| meetings::<P>(&script));
        let closes = meetings.filter(|(meeting, _)| meeting.message == [CLOSE]);
        let ends = closes.map(|(Meeting { side, record, .. }, _)| {
            let knows_partner = Numbers::of(&record).remote > 0;
            (side.index(), record[0], knows_partner)
        });
        ends.collect()
    }

    #[test]
    fn each_end_is_asked_to_close_in_each_state_and_calling_with_a_partner_and_without() {
        assert_eq!(closes::<LineProgram>(scripts()).len(), 7);
        let on_the_bench = closes::<BenchProgram>(bench::hanging_up::scripts());
        assert_eq!(on_the_bench.len(), 2 * 7);
    }
}
