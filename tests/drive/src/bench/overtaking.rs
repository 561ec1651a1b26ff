//! Sessions of both ends of a bench in which frames overtake others, by seven places at most.

use super::writer::Writer;
use crate::overtaking::{arrival, copies, request};
use crate::queue::Queue;
use crate::script::Script;
use cases::random::Random;
use reference::bench::Side;

const SCRIPTS: u64 = 60;
/// So many lines has each. Its book is full before they end.
const LINES: usize = 1_200;

/// All scripts of this sort.
pub fn scripts() -> impl Iterator<Item = Script> {
    (4_000..4_000 + SCRIPTS).map(session)
}

/// A session.
fn session(seed: u64) -> Script {
    let mut random = Random::new(seed);
    let mut writer = Writer::default();
    let mut coming = [Queue::default(), Queue::default()];
    for _ in 0..LINES {
        let side = random.pick(&Side::BOTH);
        let frame = writer.frames();
        match arrival(&mut random, &mut coming[side.index()]) {
            Some(number) => writer.deliver(number),
            None => writer.request(side, &request(&mut random, writer.state(side))),
        };
        if writer.frames() > frame {
            for _ in 0..copies(&mut random) {
                coming[side.other().index()].send(frame);
            }
        }
    }
    writer.script
}

#[cfg(test)]
mod tests {
    use super::*;
    use crate::handed_up::HandedUp;
    use crate::reference_program::ReferenceProgram;
    use cases::bench::meeting;
    use reference::bench::program::BenchProgram;

    #[test]
    fn blocks_come_up_as_they_arrive_and_by_collects() {
        let mut handed_up = HandedUp::default();
        for script in (0..20).map(session) {
            let mut program = BenchProgram::default();
            for line in script.lines() {
                let meeting = meeting(program.used(), line);
                let answer = program.answer(line);
                let (_, message) = meeting.unwrap();
                handed_up.see(&message, BenchProgram::notice(&answer));
            }
        }
        let HandedUp { arrived, collected } = handed_up;
        assert!(arrived > 500 && collected > 500, "{handed_up:?}");
    }
}
