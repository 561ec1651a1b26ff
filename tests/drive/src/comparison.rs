//! The program's answers beside those of the reference.

use crate::handed_up::HandedUp;
use crate::hung_up::HungUp;
use crate::program::{self, Run};
use crate::reference_program::ReferenceProgram;
use crate::restarted::Restarted;
use crate::script::Script;
use crate::stood::Stood;
use cases::coverage::Coverage;
use cases::group::Group;
use std::ffi::OsString;
use std::fmt;
use std::marker::PhantomData;

/// So many bytes of a line or an answer are shown.
const SHOWN: usize = 200;

/// A program under test beside one of the reference, and what it was asked.
pub struct Comparison<P> {
    program: OsString,
    pub coverage: Coverage,
    pub handed_up: HandedUp,
    pub hung_up: HungUp,
    pub restarted: Restarted,
    pub stood: Stood,
    reference: PhantomData<P>,
}

impl<P: ReferenceProgram> Comparison<P> {
    /// A comparison of this program that has asked nothing yet.
    pub fn new(program: OsString) -> Self {
        Self {
            program,
            coverage: Coverage::default(),
            handed_up: HandedUp::default(),
            hung_up: HungUp::default(),
            restarted: Restarted::default(),
            stood: Stood::default(),
            reference: PhantomData,
        }
    }

    /// Runs the program on these scripts, which must bring about these numbers.
    pub fn group(
        &mut self,
        name: &'static str,
        expected: &'static [u8],
        scripts: impl IntoIterator<Item = Script>,
    ) -> Group {
        let mut group = Group::new(name, expected);
        for (number, script) in (1..).zip(scripts) {
            match program::run(&self.program, &script.0) {
                Ok(run) => self.script(&mut group, number, &script, &run),
                Err(error) => group.fail(&format_args!("the program does not run: {error}")),
            }
        }
        group
    }

    /// Compares the program's answer to each line of a script.
    fn script(&mut self, group: &mut Group, number: u32, script: &Script, run: &Run) {
        let mut reference = P::default();
        self.hung_up.start();
        self.stood.start();
        let mut found = Answers(&run.output);
        for (place, line) in (1..).zip(script.lines()) {
            let right = self.answer(&mut reference, line);
            let found = found.next().unwrap_or_default();
            group.check(
                &format_args!("{:?}, line {place} of script {number}", Text(line)),
                P::number(&right),
                &Text(found),
                &Text(&right),
            );
        }
        self.stood.end();
        if let Some(surplus) = found.next() {
            let surplus = Text(surplus);
            group.fail(&format_args!("script {number}: surplus output {surplus:?}"));
        }
        if !run.succeeded {
            group.fail(&format_args!("script {number}: the program failed"));
        }
    }

    /// The answer of the reference. The step or the restart that it makes is noted.
    fn answer(&mut self, reference: &mut P, line: &[u8]) -> Vec<u8> {
        if let Some((side, record)) = reference.restarting(line) {
            self.restarted.see(side, record);
            self.hung_up.restart(side);
        }
        let meeting = reference.meeting(line);
        let answer = reference.answer(line);
        let number = P::number(&answer);
        if let Some(meeting) = meeting {
            self.coverage.see(&meeting.record, &meeting.message);
            self.handed_up.see(&meeting.message, P::notice(&answer));
            self.hung_up.see(&meeting, number);
        }
        self.stood.see(reference.first_record(), line, number);
        answer
    }
}

/// The answers in an output, each with all lines up to the next. An answer line starts with 8, or
/// on the bench with 5; a frame's line starts with neither.
pub struct Answers<'a>(pub &'a [u8]);

impl<'a> Iterator for Answers<'a> {
    type Item = &'a [u8];

    fn next(&mut self) -> Option<&'a [u8]> {
        if self.0.is_empty() {
            return None;
        }
        let next = self
            .0
            .windows(2)
            .position(|pair| matches!(pair, b"\n8" | b"\n5"));
        let length = next.map_or(self.0.len(), |line_feed| line_feed + 1);
        let (answer, rest) = self.0.split_at(length);
        self.0 = rest;
        Some(answer)
    }
}

/// Bytes shown as text; of very many only the first are shown.
#[derive(PartialEq)]
pub struct Text<'a>(pub &'a [u8]);

impl fmt::Debug for Text<'_> {
    fn fmt(&self, out: &mut fmt::Formatter) -> fmt::Result {
        let shown = &self.0[..self.0.len().min(SHOWN)];
        write!(out, "\"{}\"", shown.escape_ascii())?;
        if self.0.len() > SHOWN {
            write!(out, "... ({} bytes)", self.0.len())?;
        }
        Ok(())
    }
}

#[cfg(test)]
mod tests {
    use super::*;
    use reference::bench::program::BenchProgram;
    use reference::program::LineProgram;

    const INPUT: &[u8] = b"40\n\n040000000000000001\nzz";
    const OUTPUT: &[u8] = b"8002000000000100000000\n010000000100000000\n\
        8002000000000100000000\n8000020000000100000000\n8200000000000100000000\n";
    const BENCH_INPUT: &[u8] = b"5140\n520000\n520001\nzz";
    const BENCH_OUTPUT: &[u8] = b"518002000000000100000000\n010000000100000000\n\
        508000000000000000000000\n040000000000000001\n518000020000000100000000\n\
        508200000000000000000000\n";

    /// How many lines of this input passed and failed with this output.
    fn score<P: ReferenceProgram>(input: &[u8], output: &[u8], succeeded: bool) -> (u64, u64) {
        let mut group = Group::new("test", &[]);
        let run = Run {
            output: output.to_vec(),
            succeeded,
        };
        let script = Script(input.to_vec());
        Comparison::<P>::new(OsString::new()).script(&mut group, 0, &script, &run);
        let score = group.report();
        (score.passed, score.failed)
    }

    /// Every byte of the right output of so many lines counts.
    fn assert_all_counts<P: ReferenceProgram>(input: &[u8], right: &[u8], lines: u64) {
        assert_eq!(score::<P>(input, right, true), (lines, 0));
        for place in 0..right.len() {
            let mut output = right.to_vec();
            output[place] ^= 1;
            assert!(score::<P>(input, &output, true).1 > 0, "place {place}");
            let shorter = &right[..place];
            assert!(score::<P>(input, shorter, true).1 > 0, "length {place}");
        }
    }

    #[test]
    fn every_byte_counts() {
        assert_all_counts::<LineProgram>(INPUT, OUTPUT, 4);
        assert_all_counts::<BenchProgram>(BENCH_INPUT, BENCH_OUTPUT, 4);
    }

    #[test]
    fn surplus_output_and_a_failing_program_count() {
        let score = |output: &[u8], succeeded| score::<LineProgram>(INPUT, output, succeeded);
        assert_eq!(score(&[OUTPUT, b"8"].concat(), true), (4, 1));
        assert_eq!(score(&[OUTPUT, b"\n"].concat(), true), (3, 1));
        assert_eq!(score(OUTPUT, false), (4, 1));
        assert_eq!(score(b"", true), (0, 4));
    }
}
