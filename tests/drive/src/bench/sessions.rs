//! Sessions of both ends of a bench: frames are lost, delivered again, late and in any order.

use super::writer::{Manner, Writer};
use crate::script::Script;
use cases::random::Random;

/// How many sessions there are of how many lines.
const LENGTHS: [(usize, usize); 3] = [(60, 300), (40, 1_200), (4, 6_000)];

/// All scripts of this sort.
pub fn scripts() -> impl Iterator<Item = Script> {
    let lengths = LENGTHS
        .into_iter()
        .flat_map(|(times, lines)| vec![lines; times]);
    (1_000..)
        .zip(lengths)
        .map(|(seed, lines)| session(seed, lines))
}

/// A session of so many lines.
pub fn session(seed: u64, lines: usize) -> Script {
    let mut random = Random::new(seed);
    let manner = Manner::any(&mut random);
    let mut writer = Writer::default();
    writer.session(&mut random, manner, lines);
    writer.script
}

#[cfg(test)]
mod tests {
    use super::*;
    use crate::reference_program::ReferenceProgram;
    use reference::bench::program::BenchProgram;

    /// How many answers to these scripts have this text from this place on.
    fn answers(scripts: &[Script], place: usize, text: &str) -> usize {
        let count = |script: &Script| {
            let mut program = BenchProgram::default();
            let answers = script.lines().map(|line| program.answer(line));
            answers
                .filter(|answer| answer[place..].starts_with(text.as_bytes()))
                .count()
        };
        scripts.iter().map(count).sum()
    }

    #[test]
    fn sessions_open_carry_blocks_end_in_every_way_and_fill_the_book() {
        let scripts: Vec<_> = (0..40).map(|seed| session(seed, 1_000)).collect();
        for (notice, least) in [("01", 100), ("02", 10), ("03", 20), ("04", 20), ("05", 500)] {
            let times = answers(&scripts, 6, notice);
            assert!(times >= least, "notice {notice} only {times} times");
        }
        for number in ["80", "88", "8a", "8d", "8e"] {
            let times = answers(&scripts, 2, number);
            assert!(times >= 50, "{number} only {times} times");
        }
    }
}
