//! Scripts with empty lines among their lines. An empty line disturbs nothing: each other line is
//! answered as where the empty ones are left out, and an empty one by how the end stands.

use crate::comparison::{Answers, Text};
use crate::program;
use crate::reference_program::ReferenceProgram;
use crate::script::Script;
use crate::{altered, hanging_up, nearby, overtaking, sessions};
use cases::group::Group;
use cases::random::Random;
use reference::program::LineProgram;
use std::ffi::OsStr;
use std::io::Result;

/// So many lines has a script with numbers nearby.
const LINES: usize = 4_000;
/// The answer to an empty line at a fresh end.
const FRESH: &[u8] = b"8000000000000000000000\n";

/// All scripts of this sort for one end.
pub fn scripts() -> impl Iterator<Item = Script> {
    let sources = sessions::scripts().take(40);
    let sources = sources.chain(overtaking::scripts().take(20));
    let sources = sources.chain(hanging_up::scripts().take(20));
    let sources = sources.chain((250..254).map(|seed| nearby::script(seed, LINES)));
    of(sources.chain(altered::scripts().take(6)))
}

/// These scripts with empty lines among theirs.
pub fn of(sources: impl Iterator<Item = Script>) -> impl Iterator<Item = Script> {
    (6_000..)
        .zip(sources)
        .map(|(seed, source)| among(seed, &source))
}

/// The script with empty lines before its lines and after the last: none, one or a few in a row.
pub fn among(seed: u64, source: &Script) -> Script {
    let mut random = Random::new(seed);
    let mut script = Script::default();
    for line in source.lines() {
        push_some(&mut random, &mut script);
        script.push_line(line);
    }
    push_some(&mut random, &mut script);
    script
}

/// Appends empty lines, or none in most cases.
fn push_some(random: &mut Random, script: &mut Script) {
    for _ in 0..random.pick(&[0, 0, 0, 0, 0, 1, 1, 2, 3]) {
        script.push_line(b"");
    }
}

/// Runs a line program on these scripts, each as it is and without its empty lines.
pub fn group(program: &OsStr, scripts: impl IntoIterator<Item = Script>) -> Group {
    let mut group = Group::new("empty lines left out", &[0]);
    for (number, script) in (1..).zip(scripts) {
        match outputs(program, &script) {
            Ok(outputs) => check(&mut group, number, &script, &outputs),
            Err(error) => group.fail(&format_args!("the program does not run: {error}")),
        }
    }
    group
}

/// What the program prints for the script, and for the script without its empty lines.
fn outputs(program: &OsStr, script: &Script) -> Result<[Vec<u8>; 2]> {
    let whole = program::run(program, &script.0)?;
    let rest = program::run(program, &without(script).0)?;
    Ok([whole.output, rest.output])
}

/// The script without its empty lines.
fn without(script: &Script) -> Script {
    script.lines().filter(|line| !line.is_empty()).collect()
}

/// Compares what was printed for a script with what was printed for it without its empty lines. The
/// reference tells the numbers, and nothing else.
fn check(group: &mut Group, number: u32, script: &Script, [whole, rest]: &[Vec<u8>; 2]) {
    let mut reference = LineProgram::default();
    let [mut found, mut rest] = [Answers(whole), Answers(rest)];
    let mut standing = FRESH.to_vec();
    for (place, line) in (1..).zip(script.lines()) {
        let right = match line {
            [] => &standing,
            _ => rest.next().unwrap_or_default(),
        };
        group.check(
            &format_args!("{:?}, line {place} of script {number}", Text(line)),
            LineProgram::number(&reference.answer(line)),
            &Text(found.next().unwrap_or_default()),
            &Text(right),
        );
        standing = told(right);
    }
    if found.next().is_some() || rest.next().is_some() {
        group.fail(&format_args!("script {number}: surplus output"));
    }
}

/// The answer to an empty line after this answer: success, no notice, and the same state and numbers.
fn told(answer: &[u8]) -> Vec<u8> {
    let [state, numbers] = [2..4, 6..22].map(|place| answer.get(place).unwrap_or_default());
    [b"80", state, b"00", numbers, b"\n"].concat()
}

#[cfg(test)]
mod tests {
    use super::*;
    use reference::request::{COLLECT, TIMER};
    use reference::stream::{run, Lines};

    /// How many lines pass and fail where this program takes a few of the scripts.
    fn score<P: Lines + Default>() -> (u64, u64) {
        let mut group = Group::new("test", &[0]);
        let sources = overtaking::scripts()
            .take(2)
            .chain(altered::scripts().take(1));
        for script in of(sources) {
            let outputs = [&script, &without(&script)].map(|script| {
                let mut output = Vec::new();
                run(P::default(), &script.0[..], &mut output).unwrap();
                output
            });
            check(&mut group, 0, &script, &outputs);
        }
        let score = group.report();
        (score.passed, score.failed)
    }

    #[test]
    fn the_reference_is_not_disturbed() {
        let (passed, failed) = score::<LineProgram>();
        assert_eq!(failed, 0);
        assert!(passed > 3_000, "{passed}");
    }

    /// The reference with a fault where a line is empty.
    #[derive(Default)]
    struct Broken<const FAULT: u8> {
        program: LineProgram,
        /// The last answer.
        last: Vec<u8>,
    }

    const REFUSES: u8 = 0;
    const SAYS_NOTHING: u8 = 1;
    const SAYS_THE_SAME_AGAIN: u8 = 2;
    const REPEATS_THE_NOTICE: u8 = 3;
    const TELLS_OF_A_FRESH_END: u8 = 4;
    const FORGETS_THE_PARTNER: u8 = 5;
    const CALLS_THE_TIMER: u8 = 6;
    const COLLECTS_SILENTLY: u8 = 7;
    const STARTS_ANEW: u8 = 8;

    impl<const FAULT: u8> Broken<FAULT> {
        /// The answer to an empty line, with the fault.
        fn empty(&mut self) -> Vec<u8> {
            let mut right = self.program.answer(b"");
            match FAULT {
                REFUSES => right[1] = b'1',
                SAYS_NOTHING => right.clear(),
                SAYS_THE_SAME_AGAIN if !self.last.is_empty() => right.clone_from(&self.last),
                REPEATS_THE_NOTICE if !self.last.is_empty() => {
                    right[4..6].copy_from_slice(&self.last[4..6]);
                }
                TELLS_OF_A_FRESH_END => right = FRESH.to_vec(),
                FORGETS_THE_PARTNER => right[14..22].fill(b'0'),
                CALLS_THE_TIMER => right = self.request(TIMER),
                COLLECTS_SILENTLY => drop(self.request(COLLECT)),
                STARTS_ANEW => self.program = LineProgram::default(),
                _ => {}
            }
            right
        }

        /// The answer to this request.
        fn request(&mut self, kind: u8) -> Vec<u8> {
            self.program.answer(&reference::line::write(&[kind]))
        }
    }

    impl<const FAULT: u8> Lines for Broken<FAULT> {
        fn line(&mut self, line: &[u8], output: &mut Vec<u8>) {
            let answer = match line {
                [] => self.empty(),
                _ => self.program.answer(line),
            };
            output.extend(&answer);
            self.last = answer;
        }
    }

    #[test]
    fn every_fault_is_found() {
        let failed = [
            score::<Broken<REFUSES>>(),
            score::<Broken<SAYS_NOTHING>>(),
            score::<Broken<SAYS_THE_SAME_AGAIN>>(),
            score::<Broken<REPEATS_THE_NOTICE>>(),
            score::<Broken<TELLS_OF_A_FRESH_END>>(),
            score::<Broken<FORGETS_THE_PARTNER>>(),
            score::<Broken<CALLS_THE_TIMER>>(),
            score::<Broken<COLLECTS_SILENTLY>>(),
            score::<Broken<STARTS_ANEW>>(),
        ]
        .map(|(_, failed)| failed);
        assert!(failed.iter().all(|&failed| failed > 0), "{failed:?}");
    }

    #[test]
    fn a_program_that_does_not_run_is_found_out() {
        for program in ["no/such/program", "true", "cat"] {
            let score = group(OsStr::new(program), scripts().take(1)).report();
            assert!(score.failed > 0, "{program}");
        }
    }
}
