//! Benches whose pages are used up: by listening, and by restarts, each of which leaves numbers
//! unused.

use crate::script::Script;
use crate::used_up;
use reference::bench::{Side, RESTART};
use reference::page::PAGE;
use reference::request::{CONNECT, END_LISTENING, LISTEN};

/// All scripts of this sort.
pub fn scripts() -> impl Iterator<Item = Script> {
    let listening = used_up::script(&[Side::A.lead()], LISTEN, END_LISTENING);
    [listening].into_iter().chain(Side::BOTH.map(restarts))
}

/// This end restarts after each listen until it has no number left, and then once more. The other
/// listens and calls as before.
fn restarts(side: Side) -> Script {
    let mut script = Script::default();
    for _ in 0..PAGE {
        script.push(&[side.lead(), LISTEN]);
        script.push(&[RESTART, side.lead()]);
    }
    for line in [
        [side.lead(), LISTEN],
        [side.lead(), CONNECT],
        [side.other().lead(), LISTEN],
        [RESTART, side.lead()],
        [side.lead(), CONNECT],
        [RESTART, side.other().lead()],
        [side.other().lead(), CONNECT],
    ] {
        script.push(&line);
    }
    script
}

#[cfg(test)]
mod tests {
    use super::*;
    use crate::reference_program::ReferenceProgram;
    use reference::bench::program::BenchProgram;

    #[test]
    fn restarts_use_up_a_page() {
        for side in Side::BOTH {
            let mut program = BenchProgram::default();
            let numbers: Vec<_> = restarts(side)
                .lines()
                .map(|line| BenchProgram::number(&program.answer(line)))
                .collect();
            let (used, after) = numbers.split_at(2 * PAGE);
            assert!(used.iter().all(|&number| number == 0));
            assert_eq!(after, [9, 9, 0, 0, 9, 0, 0]);
            assert_eq!(program.page(side), &[0; PAGE]);
            assert_eq!(program.record(side)[..5], [0, 0, 1, 0, 0]);
        }
    }
}
