//! Compares the proved implementation with the reference, on generated inputs with fixed seeds.

use cases::group::{Group, Score};
use compare::proved::Proved;
use compare::{lines, messages, trips};
use std::process::ExitCode;

/// More than two million calls of an end on lent buffers.
const END_ROUNDS: usize = 14;
/// More than a million and a half calls of a bench.
const BENCH_ROUNDS: usize = 52;

fn main() -> ExitCode {
    let groups = [lines::groups(), messages::groups(), trips::groups()];
    let codec: Score = groups.iter().flatten().map(Group::report).sum();
    let end = cases::end::compare::<Proved>(END_ROUNDS);
    let bench = cases::bench::compare::<Proved>(BENCH_ROUNDS);
    let score: Score = [codec, end, bench].into_iter().sum();
    score.conclude()
}
