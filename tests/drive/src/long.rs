//! Long scripts, for what is measured.

use crate::script::Script;
use crate::{bench, sessions};
use cases::sample::message;
use reference::block::LONGEST_BLOCK;
use reference::frame::{Signal, DATA};
use reference::request::LISTEN;
use std::env;
use std::ffi::OsString;

/// So many calls have the two ends of a session, and half of them the one that is asked.
const CALLS: usize = 1_000_000;
/// So many lines has a session of a bench. Its book is soon full: from then on about half the lines
/// are refused by 14, and most others are deliveries that are passed over.
const LINES: usize = 500_000;
/// So many blocks are handed up.
const BLOCKS: u32 = 100_000;
/// So many lines are empty.
const EMPTY: usize = 500_000;

/// The script that the command line of this program names, and the programs after it; says how it is
/// used where one of them is missing.
pub fn asked_for(name: &str) -> Option<(Script, Vec<OsString>)> {
    let mut words = env::args_os().skip(1);
    let script = words.next().and_then(|word| script(word.to_str()?));
    let programs: Vec<_> = words.collect();
    let asked = script.filter(|_| !programs.is_empty());
    if asked.is_none() {
        eprintln!("usage: {name} line|bench|blocks|empty PROGRAM..");
    }
    asked.map(|script| (script, programs))
}

/// A session of one end (line) or of a bench, or one end that is opened and then hears nothing but
/// blocks of 64 bytes (blocks), which give the longest answers that there are, or nothing but empty
/// lines (empty).
fn script(name: &str) -> Option<Script> {
    match name {
        "line" => {
            let [script, _] = sessions::session(700, CALLS);
            Some(script)
        }
        "bench" => Some(bench::sessions::session(1_700, LINES)),
        "blocks" => Some(blocks(BLOCKS)),
        "empty" => Some(empty(EMPTY)),
        _ => None,
    }
}

/// The end is opened, with L = D = 1.
fn opening() -> Script {
    let mut script = Script::default();
    script.push(&message(LISTEN, &[], &[]));
    script.push(&message(Signal::Crao as u8, &[1, 0], &[]));
    script.push(&message(Signal::Crack as u8, &[1, 1], &[]));
    script
}

fn empty(count: usize) -> Script {
    let mut script = opening();
    for _ in 0..count {
        script.push_line(b"");
    }
    script
}

fn blocks(count: u32) -> Script {
    let mut script = opening();
    for number in 0..count {
        let byte = |at| (number as usize * 37 + at * 5) as u8;
        let block: Vec<u8> = (0..LONGEST_BLOCK).map(byte).collect();
        script.push(&message(DATA, &[1, 1, number], &block));
    }
    script
}

#[cfg(test)]
mod tests {
    use super::*;
    use crate::reference_program::ReferenceProgram;
    use reference::program::LineProgram;

    /// The answers to this script, those of the opening left out.
    fn answers(script: &Script) -> Vec<Vec<u8>> {
        let mut program = LineProgram::default();
        let answers = script.lines().map(|line| program.answer(line));
        answers.skip(3).collect()
    }

    #[test]
    fn every_block_is_handed_up() {
        let answers = answers(&blocks(300));
        let notices = answers.iter().map(|answer| LineProgram::notice(answer));
        assert_eq!(notices.collect::<Vec<_>>(), [5; 300]);
    }

    #[test]
    fn empty_lines_come_to_an_open_end() {
        assert_eq!(answers(&empty(300)), [b"8004000000000100000001\n"; 300]);
    }
}
