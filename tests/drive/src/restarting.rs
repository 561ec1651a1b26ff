//! Sessions of one end whose partner restarts now and then, and so rejects what comes from before.

use crate::end::End;
use crate::script::Script;
use crate::sessions::{request, Party};
use cases::random::Random;
use reference::page::STRETCH;
use reference::request::{END_LISTENING, LISTEN};

const SESSIONS: u64 = 40;
/// So many calls have the two ends of each.
const CALLS: usize = 1_000;
/// One of so many calls is a restart of the partner.
const RESTARTS: usize = 40;

/// The scripts of all sessions, each that of the end which keeps its power.
pub fn scripts() -> impl Iterator<Item = Script> {
    (7_000..7_000 + SESSIONS).map(session)
}

fn session(seed: u64) -> Script {
    let mut random = Random::new(seed);
    let [mut end, mut partner] = [Party::default(), Party::default()];
    let deliveries = random.within(4..=8);
    for _ in 0..CALLS {
        match random.within(0..=RESTARTS) {
            0 => restart(&mut random, &mut partner.end),
            1..=20 => end.call(&mut random, &partner, deliveries, request),
            _ => partner.call(&mut random, &end, deliveries, request),
        }
    }
    end.end.script
}

/// The end restarts, and in half the cases listens in vain until its next number is the last of its
/// page byte: if it restarts in that one, it keeps its number.
fn restart(random: &mut Random, end: &mut End) {
    end.restart();
    if random.within(0..=1) == 0 {
        for _ in 1..STRETCH {
            end.call(&[LISTEN]);
            end.call(&[END_LISTENING]);
        }
    }
}

#[cfg(test)]
mod tests {
    use super::*;
    use crate::reference_program::{told_by_rej, ReferenceProgram};
    use reference::program::LineProgram;
    use reference::Notice;

    #[test]
    fn open_ends_are_told_by_rej_of_both_sorts() {
        let [equal, above] = told_by_rej::<LineProgram>(scripts());
        assert!(equal > 5 && above > 50, "{equal} {above}");
    }

    #[test]
    fn the_end_goes_on_after_it_was_told() {
        let mut opened = 0;
        for script in scripts() {
            let mut program = LineProgram::default();
            let answers = script.lines().map(|line| program.answer(line));
            let notices = answers.map(|answer| LineProgram::notice(&answer));
            opened += notices
                .filter(|&notice| notice == Notice::Connected as u8)
                .count();
        }
        assert!(opened > 200, "{opened}");
    }
}
