//! Books that are filled to their last places and beyond, in the midst of a session.

use super::writer::{Manner, Writer};
use crate::script::Script;
use cases::random::Random;
use reference::bench::book::PLACES;
use reference::bench::Side;
use reference::request::TIMER;

const SCRIPTS: u64 = 60;
/// So many lines at most before the book is filled.
const BEFORE: usize = 300;
const AFTER: usize = 300;
/// So many timer calls come in vain.
const IN_VAIN: usize = 400;

/// All scripts of this sort.
pub fn scripts() -> impl Iterator<Item = Script> {
    (2_000..2_000 + SCRIPTS).map(script)
}

/// A session whose book is full for long, so that it is full too where many lines are lost.
pub fn long(seed: u64) -> Script {
    let mut random = Random::new(seed);
    let mut writer = Writer::default();
    let manner = Manner::any(&mut random);
    writer.session(&mut random, manner, BEFORE);
    writer.fill(&mut random, PLACES);
    for _ in 0..IN_VAIN {
        writer.request(random.pick(&Side::BOTH), &[TIMER]);
    }
    writer.session(&mut random, manner, AFTER);
    writer.script
}

/// A session in which the book suddenly has at most three places left, and which goes on.
fn script(seed: u64) -> Script {
    let mut random = Random::new(seed);
    let mut writer = Writer::default();
    let manner = Manner::any(&mut random);
    let before = random.within(0..=BEFORE);
    writer.session(&mut random, manner, before);
    let frames = random.within(PLACES - 3..=PLACES);
    writer.fill(&mut random, frames);
    let manner = Manner::any(&mut random);
    writer.session(&mut random, manner, AFTER);
    writer.script
}

#[cfg(test)]
mod tests {
    use super::*;
    use crate::reference_program::ReferenceProgram;
    use reference::bench::program::BenchProgram;

    /// How often each number is answered to such lines while the book is full.
    fn tally(scripts: impl Iterator<Item = Script>, is_counted: fn(&[u8]) -> bool) -> [usize; 15] {
        let mut tally = [0; 15];
        for script in scripts {
            let mut program = BenchProgram::default();
            for line in script.lines() {
                let is_full = program.used().len() == PLACES;
                let answer = program.answer(line);
                if is_full && is_counted(line) {
                    tally[usize::from(BenchProgram::number(&answer))] += 1;
                }
            }
        }
        tally
    }

    #[test]
    fn a_full_book_refuses_only_what_sends() {
        let all = |_: &[u8]| true;
        for tally in [
            tally((0..10).map(script), all),
            tally((0..10).map(long), all),
        ] {
            assert!(tally[0] > 100 && tally[14] > 1_000, "{tally:?}");
        }
    }

    #[test]
    fn a_full_book_refuses_a_collect_only_if_a_block_is_held() {
        let is_collect = |line: &[u8]| matches!(line, b"5046" | b"5146");
        let tally = tally(scripts(), is_collect);
        assert!(tally[0] > 100 && tally[14] > 20, "{tally:?}");
    }

    #[test]
    fn a_full_book_refuses_a_close_only_if_a_partner_is_known() {
        let is_close = |line: &[u8]| matches!(line, b"5043" | b"5143");
        let tally = tally(scripts(), is_close);
        assert!(tally[0] > 20 && tally[14] > 20, "{tally:?}");
    }
}
