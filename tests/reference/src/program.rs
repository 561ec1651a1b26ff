//! The line program: one fresh end with a new page, asked line by line.

use crate::block::LONGEST_BLOCK;
use crate::call::{either, restart, standing, Answer};
use crate::frame::LONGEST_FRAME;
use crate::line;
use crate::page::{self, PAGE};
use crate::record::RECORD;
use crate::stream::Lines;

/// The first byte of an answer line for number 0.
const SUCCESS: u8 = 0x80;

/// The line program, which holds one end.
pub struct LineProgram {
    record: [u8; RECORD],
    page: [u8; PAGE],
}

impl Default for LineProgram {
    /// A program with a new page and a fresh end.
    fn default() -> Self {
        Self {
            record: fresh(),
            page: page::NEW,
        }
    }
}

impl LineProgram {
    /// The record of its end.
    pub fn record(&self) -> &[u8; RECORD] {
        &self.record
    }

    /// A line that is not empty: questions 1 to 10, then the step of what it holds.
    fn call(&mut self, line: &[u8], output: &mut Vec<u8>) {
        let mut frame = [0; LONGEST_FRAME];
        let mut up = [0; LONGEST_BLOCK];
        let bytes = line::read(line);
        let answer = match &bytes {
            Ok(message) => either(
                &mut self.record,
                &mut self.page,
                message,
                &mut frame,
                &mut up,
            ),
            Err(refusal) => Answer::refused(&self.record, *refusal),
        };
        append_answer(&answer, &frame, output);
    }
}

impl Lines for LineProgram {
    fn line(&mut self, line: &[u8], output: &mut Vec<u8>) {
        match line {
            [] => append_answer(&standing(&self.record, &self.page), &[], output),
            _ => self.call(line, output),
        }
    }
}

/// The record of a fresh end, which a restart makes with a new page.
pub fn fresh() -> [u8; RECORD] {
    let mut record = [0; RECORD];
    restart(&mut record, &page::NEW).expect("a new page is right");
    record
}

/// Appends the answer line and, if a frame is sent, its line.
pub fn append_answer(answer: &Answer, frame: &[u8], output: &mut Vec<u8>) {
    line::append(
        &[SUCCESS + answer.number, answer.state, answer.notice],
        output,
    );
    line::append(&answer.local.to_be_bytes(), output);
    line::append(&answer.remote.to_be_bytes(), output);
    if let Some(block) = answer.block {
        line::append(&[block.count()], output);
        line::append(block.bytes(), output);
    }
    output.push(b'\n');
    if answer.sent > 0 {
        line::append(&frame[..answer.sent], output);
        output.push(b'\n');
    }
}

#[cfg(test)]
mod tests {
    use super::*;
    use crate::stream::run;

    fn output(input: &[u8]) -> String {
        let mut output = Vec::new();
        run(LineProgram::default(), input, &mut output).unwrap();
        String::from_utf8(output).unwrap()
    }

    const RUN: &str = "41\n010000000700000000\n030000000700000001\n\
        08000000070000000100000000026162\nzz\n";
    const ANSWERS: &str = "8001000000000100000000\n\
        8003000000000100000007\n\
        020000000100000007\n\
        8004010000000100000007\n\
        8004050000000100000007026162\n\
        09000000010000000700000001\n\
        8204000000000100000007\n";

    #[test]
    fn the_run_of_the_document() {
        assert_eq!(output(RUN.as_bytes()), ANSWERS);
    }

    #[test]
    fn text_after_the_last_line_feed_is_a_line() {
        let input = RUN.strip_suffix('\n').unwrap();
        assert_eq!(output(input.as_bytes()), ANSWERS);
    }

    #[test]
    fn no_input_is_no_line_and_a_lone_line_feed_an_empty_one() {
        assert_eq!(output(b""), "");
        for count in [1, 2, 100_000] {
            let answers = "8000000000000000000000\n".repeat(count);
            assert_eq!(output(&vec![b'\n'; count]), answers);
        }
        assert_eq!(output(b"45\n"), "8000000000000000000000\n");
    }

    /// The answer to this line.
    fn answer(program: &mut LineProgram, line: &str) -> String {
        let mut output = Vec::new();
        program.line(line.as_bytes(), &mut output);
        String::from_utf8(output).unwrap()
    }

    #[test]
    fn an_empty_line_tells_how_the_end_stands_and_changes_nothing() {
        let mut program = LineProgram::default();
        for (line, standing) in [
            ("42", "00000000000000000000"),
            ("41", "01000000000100000000"),
            ("010000000700000000", "03000000000100000007"),
            ("030000000700000001", "04000000000100000007"),
            ("44026162", "04000000000100000007"),
            ("08000000070000000100000001026364", "04000000000100000007"),
            ("08000000070000000100000000026162", "04000000000100000007"),
            ("zz", "04000000000100000007"),
            ("43", "05000000000100000007"),
            ("070000000700000001", "00000000000100000000"),
            ("40", "02000000000200000000"),
            ("010000000900000000", "02000000000200000009"),
        ] {
            answer(&mut program, line);
            let record = *program.record();
            for _ in 0..2 {
                assert_eq!(answer(&mut program, ""), format!("80{standing}\n"));
            }
            assert_eq!(program.record(), &record);
        }
    }

    #[test]
    fn only_the_line_of_no_characters_is_empty() {
        for line in ["\r", " ", "\0", "\t", "0"] {
            assert_eq!(number(line.as_bytes()), 1, "line {line:?}");
        }
        assert_eq!(number(b"\r\r"), 2);
    }

    /// The number that answers this line.
    fn number(line: &[u8]) -> u8 {
        let mut output = Vec::new();
        LineProgram::default().line(line, &mut output);
        line::read(&output[..2]).unwrap()[0] - SUCCESS
    }

    #[test]
    fn the_longest_line_has_156_digits() {
        let longest = format!("0800000001000000010000000040{}", "61".repeat(64));
        assert_eq!(longest.len(), 156);
        assert_eq!(number(longest.as_bytes()), 0);
        assert_eq!(number(format!("{longest}61").as_bytes()), 1);
        assert_eq!(number(&[b'0'; 1 << 20]), 1);
    }

    #[test]
    fn lines_are_asked_1_to_8() {
        for (line, right) in [
            ("4", 1),
            ("zzz", 1),
            ("41\r", 1),
            ("4\r", 2),
            ("é", 2),
            ("4G", 2),
            ("4g", 2),
            ("0a", 3),
            ("47", 3),
            ("53", 3),
            ("5350", 3),
            ("4A", 3),
            ("5040", 3),
            ("520000", 3),
            ("4000", 4),
            ("4600", 4),
            ("44", 4),
            ("4400", 5),
            ("4401", 6),
            ("440161", 8),
            ("46", 8),
            ("010000000000000000", 7),
            ("010000000100000000", 0),
        ] {
            assert_eq!(number(line.as_bytes()), right, "line {line:?}");
        }
    }

    #[test]
    fn a_collected_block_is_shown_as_one_that_arrived() {
        let opening = "41\n010000000700000000\n030000000700000001\n";
        let early = "08000000070000000100000001026364\n";
        let next = "08000000070000000100000000026162\n";
        let answers = output(format!("{opening}46\n{early}46\n{next}46\n46\n").as_bytes());
        let answers: Vec<_> = answers.lines().skip(4).collect();
        assert_eq!(
            answers,
            [
                "8004000000000100000007",
                "8004000000000100000007",
                "09000000010000000700000000",
                "8004000000000100000007",
                "8004050000000100000007026162",
                "09000000010000000700000001",
                "8004050000000100000007026364",
                "09000000010000000700000002",
                "8004000000000100000007",
            ]
        );
    }

    #[test]
    fn a_call_that_is_hung_up_unheard_is_told_without_a_frame() {
        let answers = "8002000000000100000000\n010000000100000000\n\
            8000040000000100000000\n\
            8800000000000100000000\n";
        assert_eq!(output(b"40\n43\n43\n"), answers);
    }

    #[test]
    fn the_stored_runs() {
        for (input, answers) in [
            (
                include_str!("../../../examples/collect.in"),
                include_str!("../../../examples/collect.out"),
            ),
            (
                include_str!("../../../examples/empty-lines.in"),
                include_str!("../../../examples/empty-lines.out"),
            ),
            (
                include_str!("../../../crates/line/stdin"),
                include_str!("../../../crates/line/stdout"),
            ),
        ] {
            assert_eq!(output(input.as_bytes()), answers);
        }
    }

    #[test]
    fn a_line_may_be_of_any_length() {
        let long = format!("{}\n{RUN}", "0".repeat(100_000));
        let answers = format!("8100000000000000000000\n{ANSWERS}");
        assert_eq!(output(long.as_bytes()), answers);
    }
}
