//! One end that gets requests, and frames whose numbers are at or near its own.

use crate::end::End;
use crate::script::Script;
use cases::near;
use cases::random::Random;

const SCRIPTS: u64 = 16;
const LINES: usize = 16_000;

/// All scripts of this sort.
pub fn scripts() -> impl Iterator<Item = Script> {
    (200..200 + SCRIPTS).map(|seed| script(seed, LINES))
}

/// A script of so many lines.
pub fn script(seed: u64, lines: usize) -> Script {
    let mut random = Random::new(seed);
    let mut end = End::default();
    for _ in 0..lines {
        let message = match random.within(0..=2) {
            0 => near::request(&mut random, &end.record),
            _ => near::frame(&mut random, &end.record),
        };
        end.call(&message);
    }
    end.script
}
