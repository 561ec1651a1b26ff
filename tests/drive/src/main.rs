//! Runs a line program on generated scripts, and compares its answers with those of the reference,
//! byte for byte.
//!
//! The command line names the program. Numbers from 11 on are never expected: the program has its
//! end and its page to itself, and no book.

use cases::group::{Group, Score};
use drive::comparison::Comparison;
use drive::hung_up::HungUp;
use drive::{
    altered, empty_lines, hanging_up, nearby, odd, overtaking, program, restarting, sessions,
    typed, used_up,
};
use reference::program::LineProgram;
use std::process::ExitCode;

/// So many calls of a session are typed or not, as they are one end's or the other's.
const TYPED: usize = 1_000;

fn main() -> ExitCode {
    let Some(program) = program::named("drive PROGRAM") else {
        return ExitCode::FAILURE;
    };
    let [script, _] = sessions::session(600, TYPED);
    let script = empty_lines::among(601, &script);
    let typed = typed::group::<LineProgram>(&program, &script);
    let left_out = empty_lines::group(&program, empty_lines::scripts());
    let mut comparison = Comparison::<LineProgram>::new(program);
    let groups = [
        comparison.group("sessions", &[0, 8, 10], sessions::scripts()),
        comparison.group("overtaking", &[0, 10], overtaking::scripts()),
        comparison.group("hanging up", &[0, 8], hanging_up::scripts()),
        comparison.group("partner restarts", &[0, 8, 10], restarting::scripts()),
        comparison.group("numbers used up", &[0, 8, 9], used_up::scripts()),
        comparison.group("numbers nearby", &[0, 7, 8, 10], nearby::scripts()),
        comparison.group(
            "altered lines",
            &[0, 1, 2, 3, 4, 5, 6, 7, 8, 10],
            altered::scripts(),
        ),
        comparison.group("odd input", &[0, 1, 2, 3, 4, 5, 6, 7, 8], odd::scripts()),
        comparison.group(
            "empty lines",
            &[0, 1, 2, 3, 4, 5, 6, 7, 8, 10],
            empty_lines::scripts(),
        ),
        left_out,
        typed,
    ];
    let lines: Score = groups.iter().map(Group::report).sum();
    let steps = comparison.coverage.report();
    let blocks = comparison.handed_up.report();
    let late = comparison.hung_up.report_least(HungUp::SORTS);
    let stood = comparison.stood.report();
    let scores = [lines, steps, blocks, late, stood];
    scores.into_iter().sum::<Score>().conclude()
}
