//! Sessions of both ends of a bench in which most calls are hung up.

use super::writer::{Manner, Writer};
use crate::hanging_up::request;
use crate::script::Script;
use cases::random::Random;

const SCRIPTS: u64 = 60;
/// So many lines has each.
const LINES: usize = 500;

/// All scripts of this sort.
pub fn scripts() -> impl Iterator<Item = Script> {
    (5_000..5_000 + SCRIPTS).map(session)
}

/// A session.
fn session(seed: u64) -> Script {
    let mut random = Random::new(seed);
    let manner = Manner {
        request,
        ..Manner::any(&mut random)
    };
    let mut writer = Writer::default();
    writer.session(&mut random, manner, LINES);
    writer.script
}
