//! Sessions between two ends of the reference over a mesh in which frames overtake others, by seven
//! places at most, and few are lost or come twice. Blocks that come early are held and collected.

use crate::end::End;
use crate::queue::Queue;
use crate::script::Script;
use cases::random::Random;
use cases::sample::{block, message};
use reference::request::{CLOSE, COLLECT, CONNECT, END_LISTENING, LISTEN, SEND, TIMER};
use reference::State;

/// How many sessions there are of how many calls.
const LENGTHS: [(usize, usize); 2] = [(30, 600), (4, 12_000)];

/// The scripts of all sessions, two of each.
pub fn scripts() -> impl Iterator<Item = Script> {
    let lengths = LENGTHS
        .into_iter()
        .flat_map(|(times, calls)| vec![calls; times]);
    (800..)
        .zip(lengths)
        .flat_map(|(seed, calls)| session(seed, calls))
}

/// The two scripts of a session with so many calls.
fn session(seed: u64, calls: usize) -> [Script; 2] {
    let mut random = Random::new(seed);
    let mut ends = [End::default(), End::default()];
    let mut coming = [Queue::default(), Queue::default()];
    for _ in 0..calls {
        let side = random.within(0..=1);
        let end = &mut ends[side];
        let message = arrival(&mut random, &mut coming[side]);
        let message = message.unwrap_or_else(|| request(&mut random, end.state()));
        if let Some(frame) = end.call(&message) {
            for _ in 0..copies(&mut random) {
                coming[1 - side].send(frame.to_vec());
            }
        }
    }
    ends.map(|end| end.script)
}

/// In most cases what arrives, if there is anything on its way.
pub fn arrival<T>(random: &mut Random, coming: &mut Queue<T>) -> Option<T> {
    match random.within(0..=2) {
        0 => None,
        _ => coming.arrive(random),
    }
}

/// How often a frame that is sent arrives.
pub fn copies(random: &mut Random) -> usize {
    match random.within(0..=39) {
        0 => 0,
        1 => 2,
        _ => 1,
    }
}

/// A request that fills the mesh with blocks, or that collects them.
pub fn request(random: &mut Random, state: State) -> Vec<u8> {
    let kind = match (state, random.within(0..=999)) {
        (State::Closed, _) => random.pick(&[CONNECT, LISTEN]),
        (State::Listening, 0..=99) => END_LISTENING,
        (State::Open, 0..=1) => CLOSE,
        (State::Open, 2..=499) => SEND,
        (State::Open, 500..=969) => COLLECT,
        _ => TIMER,
    };
    message(kind, &[], &block(random))
}

#[cfg(test)]
mod tests {
    use super::*;
    use crate::handed_up::HandedUp;
    use crate::reference_program::ReferenceProgram;
    use reference::line;
    use reference::program::LineProgram;
    use std::collections::BTreeMap;

    /// Blocks in their order, by L and D of the end that they are for.
    type Blocks = BTreeMap<([u8; 4], [u8; 4]), Vec<Vec<u8>>>;

    /// What happened at one end.
    #[derive(Default)]
    struct Told {
        handed_up: Blocks,
        accepted: Blocks,
        times: HandedUp,
    }

    impl Told {
        /// What the answers to this script tell.
        fn of(script: &Script) -> Self {
            let mut told = Self::default();
            let mut program = LineProgram::default();
            for line in script.lines() {
                let message = line::read(line).unwrap();
                told.note(&message, &program.answer(line));
            }
            told
        }

        /// Notes the answer to this message.
        fn note(&mut self, message: &[u8], answer: &[u8]) {
            let first = answer.split(|&byte| byte == b'\n').next();
            let answer = line::read(first.unwrap()).unwrap();
            let [local, remote] = [3, 7].map(|place| *answer[place..].first_chunk().unwrap());
            self.times.see(message, answer[2]);
            match (answer[0], answer[2], message[0]) {
                (0x80, 5, _) => {
                    let blocks = self.handed_up.entry((local, remote)).or_default();
                    blocks.push(answer[12..].to_vec());
                }
                (0x80, _, SEND) => {
                    let blocks = self.accepted.entry((remote, local)).or_default();
                    blocks.push(message[2..].to_vec());
                }
                _ => {}
            }
        }
    }

    #[test]
    fn blocks_come_up_as_they_arrive_and_by_collects_in_the_order_of_their_sending() {
        let [mut arrived, mut collected] = [0; 2];
        for seed in 0..10 {
            let [a, b] = session(seed, 3_000).map(|script| Told::of(&script));
            for (to, from) in [(&a, &b), (&b, &a)] {
                arrived += to.times.arrived;
                collected += to.times.collected;
                for (numbers, blocks) in &to.handed_up {
                    assert!(from.accepted[numbers].starts_with(blocks));
                }
            }
        }
        assert!(
            arrived > 1_000 && collected > 1_000,
            "{arrived} {collected}"
        );
    }
}
