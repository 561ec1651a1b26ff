//! Runs a bench program on generated scripts, and compares its answers with those of the reference,
//! byte for byte.
//!
//! The command line names the program. Numbers 7, 11, 12 and 15 are never expected: the bench starts
//! fresh, and its own frames, records and pages are right.

use cases::group::{Group, Score};
use drive::bench::{self, full, hanging_up, odd, overtaking, replay, restarts, sessions, used_up};
use drive::comparison::Comparison;
use drive::{altered, empty_lines, program, typed};
use reference::bench::program::BenchProgram;
use std::process::ExitCode;

/// So many lines are typed.
const TYPED: usize = 600;
/// So many sessions get faults, and so many whose books are filled.
const ALTERED: u64 = 16;
/// So many sessions with restarts get faults.
const RESTARTED: usize = 8;
/// So many lines has each session with faults whose book is not filled.
const LINES: usize = 800;
/// So many steps of the step table are met at least. Others need frames that no end sends.
const STEPS: usize = 249;
/// So many sorts of frames come after a hang-up. No end sends others.
const LATE: usize = 29;

fn main() -> ExitCode {
    let Some(program) = program::named("drive-bench PROGRAM") else {
        return ExitCode::FAILURE;
    };
    let script = empty_lines::among(1_601, &sessions::session(1_600, TYPED));
    let typed = typed::group::<BenchProgram>(&program, &script);
    let mut comparison = Comparison::<BenchProgram>::new(program);
    let sources = (1_300..1_300 + ALTERED)
        .flat_map(|seed| [sessions::session(seed, LINES), full::long(seed)])
        .chain(restarts::scripts().take(RESTARTED));
    let groups = [
        comparison.group("sessions", &[0, 8, 10, 13, 14], sessions::scripts()),
        comparison.group("overtaking", &[0, 10, 14], overtaking::scripts()),
        comparison.group("hanging up", &[0, 8], hanging_up::scripts()),
        comparison.group("restarts", &[0, 8, 10, 13, 14], restarts::scripts()),
        comparison.group(
            "restarts at every place",
            &[0, 8, 13],
            restarts::at_every_place(),
        ),
        comparison.group("numbers used up", &[0, 8, 9], used_up::scripts()),
        comparison.group("full books", &[0, 8, 10, 13, 14], full::scripts()),
        comparison.group("frames again", &[0, 8, 13, 14], replay::scripts()),
        comparison.group(
            "altered lines",
            &[0, 1, 2, 3, 4, 5, 6, 8, 10, 13, 14],
            altered::of(sources),
        ),
        comparison.group(
            "odd input",
            &[0, 1, 2, 3, 4, 5, 6, 8, 10, 13],
            odd::scripts(),
        ),
        comparison.group(
            "empty lines",
            &[0, 1, 8, 10, 13, 14],
            bench::empty_lines::scripts(),
        ),
        typed,
    ];
    let lines: Score = groups.iter().map(Group::report).sum();
    let steps = comparison.coverage.report_least(STEPS);
    let blocks = comparison.handed_up.report();
    let late = comparison.hung_up.report_least(LATE);
    let restarted = comparison.restarted.report();
    let stood = comparison.stood.report();
    let scores = [lines, steps, blocks, late, restarted, stood];
    scores.into_iter().sum::<Score>().conclude()
}
