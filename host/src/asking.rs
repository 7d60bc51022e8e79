//! The forest asked about a withdrawal, call by call, each answer judged as soon as it is there.

use crate::calls;
use crate::culprit;
use crate::forest::{AskedOfForest, Forest};
use crate::kept::Kept;
use crate::reading::Reading;
use crate::refusal::{Refusal, Refused};
use crate::steps;
use crate::types::{CorrectionMode, ScoringStrategy};
use crate::verdict::{Attribution, Verdict};
use crate::watch::{Trial, Watch};
use crate::withdrawal::{NotJudged, Withdrawal};

/// What krcf's chain asks its forest with.
const PERCENTILE: usize = 50;
const CENTRALITY: f64 = 1.0;
const PROJECT: bool = false;
const MAX_NUMBER: usize = 0;

/// A judgment that stands, and the score that it is about.
pub struct Judged {
    pub trial: Trial,
    pub score: f32,
}

/// Asks the forest about a drawer's next withdrawal and judges it. `watch` has the drawer's state,
/// which stays as it is; `settle` is told the reading that stands, and can still refuse it.
pub fn judge<F: Forest + ?Sized>(
    watch: &mut Watch,
    kept: &Kept,
    withdrawal: &Withdrawal,
    forest: &F,
    settle: impl FnOnce(&Reading) -> Result<(), Refused>,
) -> Result<Judged, NotJudged<F::Error>> {
    let reading = withdrawal.unasked(kept.descriptor());
    // Its score is 0, which is skipped unless something else is refused.
    watch.trial(&reading)?;
    let asking = Asking {
        watch,
        forest,
        settle,
    };
    asking.score(reading)
}

/// One judgment's way through the forest's calls, each stage in a function.
struct Asking<'w, 'f, F: ?Sized, S> {
    watch: &'w mut Watch,
    forest: &'f F,
    settle: S,
}

/// How that way ends.
type Ended<F> = Result<Judged, NotJudged<<F as Forest>::Error>>;

impl<F: Forest + ?Sized, S: FnOnce(&Reading) -> Result<(), Refused>> Asking<'_, '_, F, S> {
    /// Call 1. A skipped or quiet reading ends here.
    fn score(self, reading: Reading) -> Ended<F> {
        let score = self.score_of(&reading, reading.rcf_point)?;
        let reading = Reading { score, ..reading };
        let trial = self.watch.trial(&reading)?;
        match trial.verdict {
            Verdict::Skipped | Verdict::Quiet { .. } => self.end(&reading, trial),
            _ => self.corrected_score(reading, trial),
        }
    }

    /// Call 2, within a shingle of the last anomaly. A corrected score of grade 0 ends here, and
    /// noise.
    fn corrected_score(self, reading: Reading, mut trial: Trial) -> Ended<F> {
        let asked = self.watch.asked_of_forest(&reading)?;
        let corrected = self.step(&reading, steps::corrected_point(&reading, &asked))?;
        let mut reading = reading;
        if asked.corrected_score {
            reading.corrected_score = self.score_of(&reading, &corrected)?;
            trial = self.watch.trial(&reading)?;
        }
        match mode(&trial.verdict) {
            Some(CorrectionMode::Noise) => self.end(&reading, trial),
            // Of the two ways to this mode only the first has a grade of 0.
            Some(CorrectionMode::AnomalyInShingle)
                if asked.corrected_score
                    && self.step(&reading, self.corrected_grade(&reading))? == 0.0 =>
            {
                self.end(&reading, trial)
            }
            _ => self.attribution(reading, asked, &corrected),
        }
    }

    /// Calls 3 and, with auto adjust, 4. What the neighbours explain ends here.
    fn attribution(self, reading: Reading, asked: AskedOfForest, corrected: &[f32]) -> Ended<F> {
        let attribution = self.attribution_of(&reading, corrected)?;
        let mut neighbours = Vec::new();
        if asked.near_neighbor_list {
            neighbours = said(self.forest.near_neighbor_list(corrected, PERCENTILE))?;
        }
        let reading = Reading {
            attribution: attribution.lent(),
            neighbours: &neighbours,
            ..reading
        };
        let trial = self.watch.trial(&reading)?;
        match mode(&trial.verdict) {
            Some(CorrectionMode::ConditionalForecast) => self.end(&reading, trial),
            _ => self.expected_point(reading, asked),
        }
    }

    /// Calls 5, if a coordinate stands out, and 6, within a shingle of the last anomaly. Every
    /// reading ends here.
    fn expected_point(self, reading: Reading, asked: AskedOfForest) -> Ended<F> {
        let missing = self.step(&reading, steps::likely_missing_indices(&reading, asked.gap))?;
        let median;
        let mut reading = reading;
        if !missing.indices.is_empty() {
            median = said(self.forest.conditional_field(
                &missing.indices,
                reading.rcf_point,
                CENTRALITY,
                PROJECT,
                MAX_NUMBER,
            ))?;
            reading.median = &median;
        }
        let expected_attribution;
        if asked.new_attribution {
            let expected = self.step(&reading, steps::expected_point(&reading, missing.start))?;
            expected_attribution = said(self.forest.attribution(&expected))?;
            reading.expected_attribution = expected_attribution.lent();
        }
        let trial = self.watch.trial(&reading)?;
        self.end(&reading, trial)
    }

    /// The reading stands.
    fn end(self, reading: &Reading, trial: Trial) -> Ended<F> {
        (self.settle)(reading)?;
        let score = reading.score;
        Ok(Judged { trial, score })
    }

    /// The forest's score of a point, as f32.
    fn score_of(&self, reading: &Reading, point: &[f32]) -> Result<f32, NotJudged<F::Error>> {
        let score = match reading.scoring_strategy {
            ScoringStrategy::ExpectedInverseHeight => said(self.forest.score(point))?,
            ScoringStrategy::Distance => {
                let distance = said(self.forest.density_interpolant(point))?;
                total(&distance)?
            }
        };
        Ok(calls::narrow(score))
    }

    /// The forest's attribution of a point under the reading's strategy.
    fn attribution_of(
        &self,
        reading: &Reading,
        point: &[f32],
    ) -> Result<Attribution, NotJudged<F::Error>> {
        said(match reading.scoring_strategy {
            ScoringStrategy::ExpectedInverseHeight => self.forest.attribution(point),
            ScoringStrategy::Distance => self.forest.density_interpolant(point),
        })
    }

    /// The corrected score's grade against the state.
    fn corrected_grade(&self, reading: &Reading) -> Result<f32, Refusal> {
        calls::corrected_grade(self.watch.state_bytes(), reading)
    }

    /// What a step on the reading's lists answered, or what it was refused for.
    fn step<T>(
        &self,
        reading: &Reading,
        answer: Result<T, Refusal>,
    ) -> Result<T, NotJudged<F::Error>> {
        let state = self.watch.state_bytes();
        answer.map_err(|refusal| culprit::of_reading(refusal, reading, state).into())
    }
}

/// What the forest answered.
fn said<T, E>(answer: Result<T, E>) -> Result<T, NotJudged<E>> {
    answer.map_err(NotJudged::Forest)
}

/// A distance's total.
fn total(distance: &Attribution) -> Result<f64, Refused> {
    calls::total(&distance.high, &distance.low).map_err(|refusal| {
        let (high, low) = (distance.high.len(), distance.low.len());
        let about = format!("density_interpolant: {high} numbers high and {low} low");
        Refused::new(refusal, about)
    })
}

fn mode(verdict: &Verdict) -> Option<CorrectionMode> {
    match verdict {
        Verdict::Corrected { mode, .. } => Some(*mode),
        _ => None,
    }
}
