//! What the watch says of a reading.

use crate::reading::LentAttribution;
use crate::types::CorrectionMode;

/// An attribution: how much each coordinate adds to a score, krcf's `DiVector`. That of a verdict is
/// normalised: its numbers add up to the score.
#[derive(Clone, Debug, Default, PartialEq)]
pub struct Attribution {
    /// What each coordinate adds by being too high.
    pub high: Vec<f64>,
    /// What each coordinate adds by being too low.
    pub low: Vec<f64>,
}

impl Attribution {
    /// The attribution, to be lent with a reading.
    pub fn lent(&self) -> LentAttribution<'_> {
        LentAttribution {
            high: &self.high,
            low: &self.low,
        }
    }
}

/// What the watch says of an accepted reading.
///
/// ```
/// use withdrawal_watch::Verdict;
///
/// fn recount(verdict: &Verdict) -> bool {
///     matches!(verdict, Verdict::Raised { .. })
/// }
/// assert!(!recount(&Verdict::Quiet { threshold: 1.5 }));
/// ```
#[derive(Clone, Debug, PartialEq)]
pub enum Verdict {
    /// The score is not above the threshold.
    Quiet {
        /// The threshold that the score was held to.
        threshold: f32,
    },
    /// The score is above the threshold, and something explains it.
    Corrected {
        /// The threshold that the score was held to.
        threshold: f32,
        /// What explains it.
        mode: CorrectionMode,
    },
    /// Recount this drawer.
    Raised {
        /// The threshold that the score was held to.
        threshold: f32,
        /// How far the score is above it, above 0 and at most 1. It is no probability.
        grade: f32,
        /// The row that stands out: 0 is the newest, -1 the one before, and so on.
        relative_index: i32,
        /// The point that was expected.
        expected_point: Vec<f32>,
        /// How much each coordinate adds to the score.
        attribution: Attribution,
    },
    /// The score is 0: the reading was not counted.
    Skipped,
}

impl Verdict {
    /// The threshold that the score was held to; a skipped reading has none.
    pub fn threshold(&self) -> Option<f32> {
        match *self {
            Verdict::Quiet { threshold }
            | Verdict::Corrected { threshold, .. }
            | Verdict::Raised { threshold, .. } => Some(threshold),
            Verdict::Skipped => None,
        }
    }
}
