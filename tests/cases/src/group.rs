//! A group of cases, and its report.

use std::collections::BTreeMap;
use std::fmt::{Debug, Display};
use std::iter::Sum;
use std::process::ExitCode;

/// So many mismatches of a group are printed.
const SHOWN: u64 = 5;

/// How many cases passed and failed.
#[derive(Default)]
pub struct Score {
    pub passed: u64,
    pub failed: u64,
}

impl Score {
    /// Prints the score as the last line of a program, and gives the program's exit status:
    /// success only if cases were made and none failed.
    pub fn conclude(&self) -> ExitCode {
        println!("{} passed, {} failed", self.passed, self.failed);
        if self.failed == 0 && self.passed > 0 {
            ExitCode::SUCCESS
        } else {
            ExitCode::FAILURE
        }
    }
}

impl Sum for Score {
    fn sum<I: Iterator<Item = Self>>(scores: I) -> Self {
        scores.fold(Self::default(), |sum, score| Self {
            passed: sum.passed + score.passed,
            failed: sum.failed + score.failed,
        })
    }
}

/// Cases of one sort.
pub struct Group {
    name: &'static str,
    /// The numbers that its cases must bring about.
    expected: &'static [u8],
    /// How often each number was brought about.
    seen: BTreeMap<u8, u64>,
    score: Score,
}

impl Group {
    /// A group without cases.
    pub fn new(name: &'static str, expected: &'static [u8]) -> Self {
        Self {
            name,
            expected,
            seen: BTreeMap::new(),
            score: Score::default(),
        }
    }

    /// How many cases were made.
    pub fn compared(&self) -> u64 {
        self.score.passed + self.score.failed
    }

    /// One case: what was found for this input equals what is right, which has this number.
    pub fn check<T: Debug + PartialEq>(
        &mut self,
        input: &impl Debug,
        number: u8,
        found: &T,
        right: &T,
    ) {
        *self.seen.entry(number).or_default() += 1;
        if found == right {
            self.score.passed += 1;
        } else {
            self.fail(&format_args!(
                "mismatch\n  input {input:?}\n  found {found:?}\n  right {right:?}"
            ));
        }
    }

    /// One case that failed, and how.
    pub fn fail(&mut self, how: &impl Display) {
        self.score.failed += 1;
        if self.score.failed <= SHOWN {
            println!("{}: {how}", self.name);
        }
    }

    /// Prints what was compared. Each expected number that was never seen is a failed case.
    pub fn report(&self) -> Score {
        let numbers: String = self
            .seen
            .iter()
            .map(|(number, times)| format!(" {number}:{times}"))
            .collect();
        println!(
            "{}: {} compared; numbers{numbers}",
            self.name,
            self.compared()
        );
        Score {
            passed: self.score.passed,
            failed: self.score.failed + self.report_unseen(),
        }
    }

    /// Prints the expected numbers that were never seen, and counts them.
    fn report_unseen(&self) -> u64 {
        let unseen = self
            .expected
            .iter()
            .filter(|number| !self.seen.contains_key(number));
        unseen
            .inspect(|number| println!("{}: number {number} was never seen", self.name))
            .count() as u64
    }
}
