//! Readings with all that is lent to them, and how the Rust judges them.

pub mod damage;
pub mod decoded;
pub mod exits;
pub mod making;
pub mod states;
pub mod table;

use rcflib::common::descriptor::Descriptor;
use rcflib::common::divector::DiVector;
use rcflib::rcf::{of_total, Call, Lent, RCFLarge};
use rcflib::trcf::predictorcorrector::PredictorCorrector;
use rcflib::trcf::types::{CorrectionMode, ScoringStrategy, TransformMethod};

use crate::random::Random;
use crate::same::Same;
use crate::values;

/// The methods in the order of their codes.
pub const METHODS: [TransformMethod; 6] = [
    TransformMethod::NONE,
    TransformMethod::WEIGHTED,
    TransformMethod::DIFFERENCE,
    TransformMethod::SUBTRACT_MA,
    TransformMethod::NORMALIZE,
    TransformMethod::NORMALIZE_DIFFERENCE,
];

/// One reading. Of `last` the chain reads score, threshold, strategy and the last anomaly.
#[derive(Clone, Debug)]
pub struct Reading {
    pub shingle: usize,
    pub base: usize,
    pub strategy: ScoringStrategy,
    pub method: TransformMethod,
    pub time_augmented: bool,
    pub values_seen: usize,
    pub point: Vec<f32>,
    pub scale: Vec<f32>,
    pub shift: Vec<f32>,
    pub deviations: Vec<f32>,
    pub score: f32,
    pub corrected_score: f32,
    pub attribution: DiVector,
    pub expected_attribution: DiVector,
    pub median: Vec<f32>,
    pub neighbours: Vec<Vec<f32>>,
    pub last: Descriptor,
}

impl Reading {
    /// How much later this reading is than the last anomaly, or than nothing at all.
    pub fn gap(&self) -> usize {
        let last = self.last.last_anomaly.as_ref();
        self.values_seen - last.map_or(0, |a| a.values_seen)
    }

    pub fn is_height(&self) -> bool {
        self.strategy == ScoringStrategy::EXPECTED_INVERSE_HEIGHT
    }

    /// Whether a corrected score is asked for, once the opening grade is above 0.
    pub fn corrects(&self) -> bool {
        self.last.last_anomaly.is_some() && self.gap() <= self.shingle
    }

    /// The forest's results in the order of the calls.
    pub fn lent(&self) -> Lent {
        let neighbours = self.neighbours.iter().map(|p| (0.0, p.clone(), 0.0));
        let mut lent = Lent {
            neighbours: neighbours.collect(),
            median: self.median.clone(),
            ..Lent::default()
        };
        if self.is_height() {
            lent.scores = [self.score as f64, self.corrected_score as f64].into();
            lent.attributions.push_back(self.attribution.clone());
        } else {
            lent.densities.push_back(of_total(self.score));
            if self.corrects() {
                lent.densities.push_back(of_total(self.corrected_score));
            }
            lent.densities.push_back(self.attribution.clone());
        }
        lent.attributions
            .push_back(self.expected_attribution.clone());
        lent
    }

    /// Puts any finite floats into some of the lists and numbers.
    pub fn strew(&mut self, random: &mut Random) {
        let mut singles: Vec<&mut [f32]> = vec![
            &mut self.point,
            &mut self.scale,
            &mut self.shift,
            &mut self.deviations,
            &mut self.median,
            std::slice::from_mut(&mut self.score),
            std::slice::from_mut(&mut self.corrected_score),
            std::slice::from_mut(&mut self.last.score),
            std::slice::from_mut(&mut self.last.threshold),
        ];
        singles.extend(self.neighbours.iter_mut().map(|p| &mut p[..]));
        if let Some(a) = &mut self.last.last_anomaly {
            singles.push(&mut a.expected_rcf_point);
            singles.push(&mut a.anomalous_rcf_point);
            singles.push(std::slice::from_mut(&mut a.score));
        }
        for list in singles {
            strew(
                random,
                list,
                |r| values::any32(r, values::list32()),
                f32::is_finite,
            );
        }
        for v in [&mut self.attribution, &mut self.expected_attribution] {
            for list in [&mut v.high, &mut v.low] {
                strew(
                    random,
                    list,
                    |r| values::any64(r, values::list64()),
                    f64::is_finite,
                );
            }
        }
    }

    pub fn descriptor(&self) -> Descriptor {
        Descriptor {
            rcf_point: Some(self.point.clone()),
            values_seen: self.values_seen,
            transform_method: self.method,
            scoring_strategy: self.strategy,
            time_augmented: self.time_augmented,
            scale: Some(self.scale.clone()),
            shift: Some(self.shift.clone()),
            difference_deviations: Some(self.deviations.clone()),
            ..Descriptor::default()
        }
    }

    /// What the Rust says, and the calls that it made for that.
    pub fn judge(&self, chain: &mut PredictorCorrector) -> (Descriptor, Vec<Call>) {
        let forest = RCFLarge::<u64, u64>::lending(self.shingle * self.base, self.lent());
        let mut result = self.descriptor();
        chain
            .detect_and_modify(&mut result, &self.last, self.shingle, &forest)
            .expect("the stand-in forest refuses nothing");
        (result, forest.calls())
    }
}

/// Every eighth list gets other floats at about half of its places.
fn strew<T: Copy>(
    random: &mut Random,
    list: &mut [T],
    any: impl Fn(&mut Random) -> T,
    finite: impl Fn(T) -> bool,
) {
    if !random.once_in(8) {
        return;
    }
    for x in list {
        let other = any(random);
        if finite(other) && random.once_in(2) {
            *x = other;
        }
    }
}

/// Document 01's verdicts with their floats.
#[derive(Clone, Copy, Debug)]
pub enum Verdict {
    Skipped,
    Quiet(f32),
    Corrected(f32, CorrectionMode),
    Raised(f32, f32),
}

impl Same for Verdict {
    fn same(&self, other: &Verdict) -> bool {
        match (self, other) {
            (Verdict::Skipped, Verdict::Skipped) => true,
            (Verdict::Quiet(a), Verdict::Quiet(b)) => a.same(b),
            (Verdict::Corrected(a, m), Verdict::Corrected(b, n)) => a.same(b) && m == n,
            (Verdict::Raised(a, g), Verdict::Raised(b, h)) => a.same(b) && g.same(h),
            _ => false,
        }
    }

    fn show(&self) -> String {
        match self {
            Verdict::Skipped => "skipped".to_string(),
            Verdict::Quiet(t) => format!("quiet {}", t.show()),
            Verdict::Corrected(t, mode) => format!("corrected {}, {mode:?}", t.show()),
            Verdict::Raised(t, grade) => format!("raised {}, grade {}", t.show(), grade.show()),
        }
    }
}

/// The verdict that a judged descriptor stands for.
pub fn verdict(result: &Descriptor) -> Verdict {
    if result.score == 0.0 {
        Verdict::Skipped
    } else if result.expected_rcf_point.is_some() {
        Verdict::Raised(result.threshold, result.anomaly_grade)
    } else if result.correction_mode == CorrectionMode::NONE {
        Verdict::Quiet(result.threshold)
    } else {
        Verdict::Corrected(result.threshold, result.correction_mode)
    }
}
