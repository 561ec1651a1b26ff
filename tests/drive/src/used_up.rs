//! Scripts that use up the numbers of a page.

use crate::script::Script;
use reference::line;
use reference::page::LAST_NUMBER;
use reference::request::{CLOSE, CONNECT, LISTEN, TIMER};

/// Calls that are hung up at once until there is no number left, and what is asked then.
pub fn scripts() -> impl Iterator<Item = Script> {
    [script(&[], CONNECT, CLOSE)].into_iter()
}

/// The two requests in turn, after this lead, as often as there are numbers; then further ones.
pub fn script(lead: &[u8], begin: u8, end: u8) -> Script {
    let mut script = Script::default();
    let mut push = |request: u8| {
        let line = line::write(&[lead, &[request]].concat());
        script.push_line(&line);
    };
    for _ in 0..LAST_NUMBER {
        push(begin);
        push(end);
    }
    for request in [CONNECT, LISTEN, TIMER, end, CONNECT] {
        push(request);
    }
    script
}

#[cfg(test)]
mod tests {
    use super::*;
    use crate::reference_program::ReferenceProgram;
    use reference::program::LineProgram;

    #[test]
    fn the_65537th_connect_finds_no_number() {
        let mut program = LineProgram::default();
        let script = scripts().next().unwrap();
        assert_eq!(script.lines().count(), 131_072 + 5);
        let numbers: Vec<_> = script
            .lines()
            .map(|line| LineProgram::number(&program.answer(line)))
            .collect();
        let (used, after) = numbers.split_at(131_072);
        assert!(used.iter().all(|&number| number == 0));
        assert_eq!(after, [9, 9, 0, 8, 9]);
        assert_eq!(program.record()[..5], [0, 0, 1, 0, 0]);
    }
}
