//! What calls met: steps of the step table, and pages.

use crate::coverage::Coverage;
use crate::group::Score;
use crate::pages::{Call, Seen};

/// What calls of these sorts met so far.
pub struct Met {
    /// The steps that they made.
    pub steps: Coverage,
    /// The pages that they were lent.
    pub pages: Seen,
}

impl Met {
    /// None of these calls was made yet.
    pub fn new(calls: &[Call]) -> Self {
        Self {
            steps: Coverage::default(),
            pages: Seen::new(calls),
        }
    }

    /// Prints how much was met. Each step and each sort of page that was never met is a failed
    /// case.
    pub fn report(&self) -> Score {
        let scores = [self.steps.report(), self.pages.report()];
        scores.into_iter().sum()
    }
}

/// Does a call that answers this number make a step, if its message is right?
pub fn makes_step(number: u8) -> bool {
    !matches!(number, 11 | 12 | 15)
}
