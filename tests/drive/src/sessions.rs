//! Sessions between two ends of the reference: each end's script holds its requests and those
//! frames of the other that reach it, in order or not, again or never.

use crate::end::End;
use crate::script::Script;
use cases::random::Random;
use cases::sample::{block, message, REQUEST_KINDS};
use reference::request::{CLOSE, COLLECT, CONNECT, END_LISTENING, LISTEN, SEND, TIMER};
use reference::State;

/// How many sessions there are of how many calls.
const LENGTHS: [(usize, usize); 3] = [(40, 300), (8, 8_000), (1, 60_000)];

/// The scripts of all sessions, two of each.
pub fn scripts() -> impl Iterator<Item = Script> {
    let lengths = LENGTHS
        .into_iter()
        .flat_map(|(times, calls)| vec![calls; times]);
    (100..)
        .zip(lengths)
        .flat_map(|(seed, calls)| session(seed, calls))
}

/// Makes a request of an end in this state.
pub type Requests = fn(&mut Random, State) -> Vec<u8>;

/// The two scripts of a session with so many calls.
pub fn session(seed: u64, calls: usize) -> [Script; 2] {
    session_of(seed, calls, request)
}

/// The same with these requests.
pub fn session_of(seed: u64, calls: usize, request: Requests) -> [Script; 2] {
    let mut random = Random::new(seed);
    let [mut a, mut b] = [Party::default(), Party::default()];
    let deliveries = random.within(3..=8);
    for _ in 0..calls {
        match random.within(0..=1) {
            0 => a.call(&mut random, &b, deliveries, request),
            _ => b.call(&mut random, &a, deliveries, request),
        }
    }
    [a.end.script, b.end.script]
}

/// One of the two in a session: its end, and how far its partner's frames have come.
#[derive(Default)]
pub struct Party {
    pub end: End,
    taken: Taken,
}

impl Party {
    /// Takes a frame of its partner in so many cases of ten, else makes such a request.
    pub fn call(
        &mut self,
        random: &mut Random,
        partner: &Self,
        deliveries: usize,
        request: Requests,
    ) {
        let sent = &partner.end.sent;
        let message = if random.within(1..=10) <= deliveries && !sent.is_empty() {
            sent[self.taken.next(random, sent.len())].clone()
        } else {
            request(random, self.end.state())
        };
        self.end.call(&message);
    }
}

/// The partner's frames before this number have reached the end or are late.
#[derive(Clone, Copy, Default)]
pub struct Taken(usize);

impl Taken {
    /// One of so many frames, 1 at least: mostly the next one, else the newest, a recent one or
    /// any.
    pub fn next(&mut self, random: &mut Random, frames: usize) -> usize {
        let newest = frames - 1;
        let number = match random.within(0..=9) {
            0 => random.within(0..=newest),
            1 => random.within(newest.saturating_sub(8)..=newest),
            2 => newest,
            _ => self.0.min(newest),
        };
        self.0 = self.0.max(number + 1);
        number
    }
}

/// A request that keeps the session going from this state, or seldom any.
pub fn request(random: &mut Random, state: State) -> Vec<u8> {
    let kind = match (state, random.within(0..=31)) {
        (_, 0) => random.pick(&REQUEST_KINDS),
        (State::Closed, _) => random.pick(&[CONNECT, LISTEN]),
        (State::Listening, 1 | 2) => END_LISTENING,
        (State::Calling | State::Open, 1) => CLOSE,
        (State::Open, 2..=19) => SEND,
        (State::Open, 20..=27) => COLLECT,
        _ => TIMER,
    };
    message(kind, &[], &block(random))
}

#[cfg(test)]
mod tests {
    use super::*;
    use crate::reference_program::ReferenceProgram;
    use reference::program::LineProgram;

    /// How many answers to this script have this notice.
    fn notices(script: &Script, notice: &str) -> usize {
        let mut program = LineProgram::default();
        let answers = script.lines().filter(|line| {
            let answer = program.answer(line);
            answer[4..6] == *notice.as_bytes()
        });
        answers.count()
    }

    #[test]
    fn sessions_open_carry_blocks_and_end_in_every_way() {
        let scripts: Vec<_> = (0..20).flat_map(|seed| session(seed, 3_000)).collect();
        for (notice, least) in [
            ("01", 100),
            ("02", 10),
            ("03", 50),
            ("04", 50),
            ("05", 1_000),
        ] {
            let times: usize = scripts.iter().map(|script| notices(script, notice)).sum();
            assert!(times >= least, "notice {notice} only {times} times");
        }
    }
}
