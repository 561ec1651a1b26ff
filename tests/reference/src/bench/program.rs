//! The bench program: two fresh ends with new pages and an empty book, asked line by line.

use super::book::{Place, BOOK, PLACE};
use super::Side;
use crate::block::LONGEST_BLOCK;
use crate::frame::LONGEST_FRAME;
use crate::line;
use crate::page::{self, PAGE};
use crate::program::{append_answer, fresh};
use crate::record::RECORD;
use crate::stream::Lines;

/// The bench program, which holds a bench.
pub struct BenchProgram {
    records: [[u8; RECORD]; 2],
    pages: [[u8; PAGE]; 2],
    book: Vec<u8>,
    count: usize,
}

impl Default for BenchProgram {
    /// A program with new pages, fresh ends and an empty book.
    fn default() -> Self {
        Self {
            records: [fresh(); 2],
            pages: [page::NEW; 2],
            book: vec![0; BOOK],
            count: 0,
        }
    }
}

impl BenchProgram {
    /// The record of this end.
    pub fn record(&self, side: Side) -> &[u8; RECORD] {
        &self.records[side.index()]
    }

    /// The page of this end.
    pub fn page(&self, side: Side) -> &[u8; PAGE] {
        &self.pages[side.index()]
    }

    /// The places of the book that are in use.
    pub fn used(&self) -> &[Place] {
        &self.book.as_chunks::<PLACE>().0[..self.count]
    }

    /// The bytes of the book.
    pub fn book(&self) -> &[u8] {
        &self.book
    }
}

impl Lines for BenchProgram {
    fn line(&mut self, line: &[u8], output: &mut Vec<u8>) {
        let mut frame = [0; LONGEST_FRAME];
        let mut up = [0; LONGEST_BLOCK];
        let [a, b] = &mut self.records;
        let [a_page, b_page] = &mut self.pages;
        let answer = super::line(
            [a, b],
            [a_page, b_page],
            &mut self.book,
            self.count,
            line,
            &mut frame,
            &mut up,
        );
        line::append(&[answer.side.lead()], output);
        append_answer(&answer.end, &frame, output);
        self.count = answer.count;
    }
}

#[cfg(test)]
mod tests {
    use super::*;
    use crate::bench::{book, changing};
    use crate::stream::run;

    fn output(input: &str) -> String {
        let mut output = Vec::new();
        run(BenchProgram::default(), input.as_bytes(), &mut output).unwrap();
        String::from_utf8(output).unwrap()
    }

    #[test]
    fn a_whole_run() {
        let input = "5141\n5040\n520000\n520001\n520002\n5044026162\n520003\n520004\nzz\n5143\n";
        let answers = "518001000000000100000000\n\
            508002000000000100000000\n010000000100000000\n\
            518003000000000100000001\n020000000100000001\n\
            508004010000000100000001\n030000000100000001\n\
            518004010000000100000001\n\
            508004000000000100000001\n08000000010000000100000000026162\n\
            518004050000000100000001026162\n09000000010000000100000001\n\
            508004000000000100000001\n\
            508204000000000100000001\n\
            518005000000000100000001\n060000000100000001\n";
        assert_eq!(output(input), answers);
        assert_eq!(output(input.trim_end()), answers);
    }

    #[test]
    fn the_story_of_a_refused_call() {
        let input = include_str!("../../../../examples/story.in");
        let answers = include_str!("../../../../examples/story.out");
        assert_eq!(output(input), answers);
    }

    #[test]
    fn the_other_stored_runs() {
        for (input, answers) in [
            (
                include_str!("../../../../examples/overtake.in"),
                include_str!("../../../../examples/overtake.out"),
            ),
            (
                include_str!("../../../../examples/full-book.in"),
                include_str!("../../../../examples/full-book.out"),
            ),
            (
                include_str!("../../../../examples/hang-up.in"),
                include_str!("../../../../examples/hang-up.out"),
            ),
            (
                include_str!("../../../../examples/hang-up-full-book.in"),
                include_str!("../../../../examples/hang-up-full-book.out"),
            ),
            (
                include_str!("../../../../examples/restart.in"),
                include_str!("../../../../examples/restart.out"),
            ),
        ] {
            assert_eq!(output(input), answers);
        }
    }

    #[test]
    fn the_stored_run_beside_the_program() {
        let input = include_str!("../../../../crates/bench/stdin");
        let answers = include_str!("../../../../crates/bench/stdout");
        assert_eq!(output(input), answers);
    }

    #[test]
    fn no_input_is_no_line_and_a_lone_line_feed_an_empty_one() {
        assert_eq!(output(""), "");
        assert_eq!(output("\n"), "508100000000000000000000\n");
        assert_eq!(output("\n\n"), "508100000000000000000000\n".repeat(2));
    }

    /// The end byte and the number that answer this line after A called.
    fn start_of_answer(line: &str) -> String {
        let answers = output(&format!("5040\n{line}"));
        let last = answers.lines().nth(2).unwrap();
        last[..4].to_string()
    }

    #[test]
    fn the_end_byte_of_refused_lines() {
        for (line, right) in [
            ("\n", "5081"),
            ("\r", "5081"),
            ("515", "5081"),
            ("51zz", "5082"),
            ("5G", "5082"),
            ("51@0", "5082"),
            ("40", "5083"),
            ("5A", "5083"),
            ("010000000100000000", "5083"),
            ("50", "5083"),
            ("51", "5183"),
            ("5050", "5083"),
            ("5150", "5183"),
            ("5152", "5183"),
            ("5101", "5183"),
            ("5147", "5183"),
            ("53", "5084"),
            ("5352", "5083"),
            ("5340", "5083"),
            ("535200", "5083"),
            ("535050", "5084"),
            ("535150", "5084"),
            ("53510000", "5084"),
            ("5350", "5080"),
            ("5351", "5180"),
            ("54", "5083"),
            ("5153", "5183"),
            ("515351", "5183"),
            ("52", "5084"),
            ("5200", "5084"),
            ("52000000", "5084"),
            ("5140ff", "5184"),
            ("5144", "5184"),
            ("514600", "5184"),
            ("504400", "5085"),
            ("514441", "5185"),
            ("514401", "5186"),
            ("520001", "508d"),
            ("52ffff", "508d"),
            ("52FFfF", "508d"),
            ("5143", "5188"),
            ("5146", "5188"),
            ("5046", "5088"),
            ("5040", "5088"),
            ("520000", "5180"),
        ] {
            assert_eq!(start_of_answer(line), right, "line {line:?}");
        }
    }

    #[test]
    fn an_end_that_restarts_tells_its_partner_by_rej() {
        let opening = "5141\n5040\n520000\n520001\n520002\n";
        let input = format!("{opening}5351\n504403616263\n520003\n520004\n5140\n");
        let answers = output(&input);
        let answers: Vec<_> = answers.lines().skip(8).collect();
        assert_eq!(
            answers,
            [
                "518000000000001000000000",
                "508004000000000100000001",
                "0800000001000000010000000003616263",
                "518000000000001000000000",
                "040000001000000001",
                "508000030000000100000000",
                "518002000000001100000000",
                "010000001100000000",
            ]
        );
    }

    #[test]
    fn a_full_book_refuses_what_sends() {
        let mut program = BenchProgram::default();
        let mut say = |line: &str| {
            let mut answer = Vec::new();
            program.line(line.as_bytes(), &mut answer);
            String::from_utf8(answer).unwrap()
        };
        assert_eq!(&say("5040")[..4], "5080");
        for _ in 1..512 {
            assert_eq!(&say("5045")[..4], "5080");
        }
        assert_eq!(say("5045"), "508e02000000000100000000\n");
        assert_eq!(say("5140"), "518e00000000000000000000\n");
        assert_eq!(say("5141"), "518001000000000100000000\n");
        assert_eq!(say("5201ff"), "518e01000000000100000000\n");
        assert_eq!(&say("520200")[..4], "508d");
        assert_eq!(program.used().len(), 512);
        assert_eq!(
            program.used()[511],
            book::place(Side::A, &[1, 0, 0, 0, 1, 0, 0, 0, 0])
        );
        let records = Side::BOTH.map(|side| &program.record(side)[..]);
        let pages = Side::BOTH.map(|side| &program.page(side)[..]);
        assert_eq!(changing(records, pages, program.book(), 512), Ok(vec![]));
    }
}
