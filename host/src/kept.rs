//! What a drawer keeps of its readings: the Rust's last descriptor.

use crate::reading::{LastAnomaly, LastDescriptor};
use crate::types::ScoringStrategy;
use crate::verdict::{Attribution, Verdict};
use crate::withdrawal::Withdrawal;

/// A raised reading as the drawer keeps it: what the chain reads of krcf's `AnomalyInformation`, with
/// its attribution and grade.
#[derive(Clone, Debug, Default, PartialEq)]
pub struct Anomaly {
    /// The point that was expected instead of it.
    pub expected_rcf_point: Vec<f32>,
    /// Its own point.
    pub anomalous_rcf_point: Vec<f32>,
    /// The row that stood out: 0 is the newest, -1 the one before, and so on.
    pub relative_index: i32,
    /// Its `values_seen`.
    pub values_seen: usize,
    /// How much each coordinate added to its score.
    pub attribution: Attribution,
    /// Its score.
    pub score: f32,
    /// Its grade.
    pub grade: f32,
}

impl Anomaly {
    fn lent(&self) -> LastAnomaly<'_> {
        LastAnomaly {
            relative_index: self.relative_index,
            values_seen: self.values_seen,
            has_attribution: true,
            score: self.score,
            expected_rcf_point: &self.expected_rcf_point,
            anomalous_rcf_point: &self.anomalous_rcf_point,
        }
    }
}

/// What the next reading is told of those before. Score and threshold are finite.
#[derive(Clone, Debug, Default, PartialEq)]
pub struct Kept {
    pub scoring_strategy: ScoringStrategy,
    pub score: f32,
    pub threshold: f32,
    pub values_seen: usize,
    pub anomaly: Option<Anomaly>,
}

impl Kept {
    pub fn descriptor(&self) -> LastDescriptor<'_> {
        LastDescriptor {
            scoring_strategy: self.scoring_strategy,
            score: self.score,
            threshold: self.threshold,
            last_anomaly: self.anomaly.as_ref().map(Anomaly::lent),
        }
    }

    /// Puts an accepted withdrawal in the place of the one before: its score, and its threshold, which
    /// is 0 for a skipped one, as the Rust's descriptor has it. A threshold that is not finite would
    /// have every later reading refused, so the last finite one stays instead.
    pub fn remember(&mut self, withdrawal: &Withdrawal, score: f32, verdict: &Verdict) {
        let threshold = verdict.threshold().unwrap_or(0.0);
        if threshold.is_finite() {
            self.threshold = threshold;
        }
        self.scoring_strategy = withdrawal.scoring_strategy;
        self.score = score;
        self.values_seen = withdrawal.values_seen;
        if let Verdict::Raised {
            grade,
            relative_index,
            expected_point,
            attribution,
            ..
        } = verdict
        {
            self.anomaly = Some(Anomaly {
                expected_rcf_point: expected_point.clone(),
                anomalous_rcf_point: withdrawal.rcf_point.to_vec(),
                relative_index: *relative_index,
                values_seen: withdrawal.values_seen,
                attribution: attribution.clone(),
                score,
                grade: *grade,
            });
        }
    }
}
