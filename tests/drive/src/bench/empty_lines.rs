//! Scripts for a bench with empty lines among their lines.

use super::{hanging_up, overtaking, sessions};
use crate::empty_lines;
use crate::script::Script;

/// All scripts of this sort.
pub fn scripts() -> impl Iterator<Item = Script> {
    let sources = sessions::scripts().take(40);
    let sources = sources.chain(overtaking::scripts().take(20));
    empty_lines::of(sources.chain(hanging_up::scripts().take(20)))
}
