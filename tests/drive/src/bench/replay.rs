//! All frames of a session delivered once more, in their order and against it, and every number
//! that the book does not hold.

use super::writer::{Manner, Writer};
use crate::script::Script;
use cases::random::Random;

const SCRIPTS: u64 = 24;
/// So many lines at most before the frames come once more.
const BEFORE: usize = 250;

/// All scripts of this sort.
pub fn scripts() -> impl Iterator<Item = Script> {
    let replays = (3_000..3_000 + SCRIPTS).map(replay);
    replays.chain([numbers()])
}

/// A session whose frames all come again.
fn replay(seed: u64) -> Script {
    let mut random = Random::new(seed);
    let manner = Manner::any(&mut random);
    let before = random.within(1..=BEFORE);
    let mut writer = Writer::default();
    writer.session(&mut random, manner, before);
    let frames = writer.frames();
    for number in (0..=frames).chain((0..=frames).rev()) {
        writer.deliver(number);
    }
    writer.session(&mut random, manner, before);
    writer.script
}

/// Every number of a delivery that has few places behind it, and some beyond.
fn numbers() -> Script {
    let mut random = Random::new(3_999);
    let mut writer = Writer::default();
    for frames in [0, 1, 2, 255, 256, 257, 511, 512] {
        writer.fill(&mut random, frames);
        for number in (0..600).chain([0x01_00, 0x02_00, 0x7f_ff, 0x80_00, 0xff_00, 0xff_ff]) {
            if writer.deliver(number) == 0 && writer.frames() > frames {
                break;
            }
        }
        let beyond = writer.frames();
        for number in [beyond, beyond + 1, 511, 512, 513, 0xff_ff] {
            writer.deliver(number);
        }
    }
    writer.script
}

#[cfg(test)]
mod tests {
    use super::*;
    use crate::reference_program::ReferenceProgram;
    use reference::bench::program::BenchProgram;

    /// How many answers to this script have each number.
    fn tally(script: &Script) -> [usize; 15] {
        let mut program = BenchProgram::default();
        let mut tally = [0; 15];
        for line in script.lines() {
            tally[usize::from(BenchProgram::number(&program.answer(line)))] += 1;
        }
        tally
    }

    #[test]
    fn frames_come_again() {
        let deliveries: usize = (0..10).map(|seed| tally(&replay(seed))[0]).sum();
        assert!(deliveries > 1_000);
    }

    #[test]
    fn numbers_reach_a_full_book() {
        let tally = tally(&numbers());
        assert!(tally[13] > 40 && tally[14] > 0, "{tally:?}");
    }
}
