//! Random sequences of readings that share a state, each reading made for one of the chain's exits.
//! Whether it ends there the Rust decides.

use rcflib::common::descriptor::{AnomalyInformation, Descriptor};
use rcflib::common::divector::DiVector;
use rcflib::trcf::basicthresholder::BasicThresholder;
use rcflib::trcf::predictorcorrector::PredictorCorrector;
use rcflib::trcf::types::{ScoringStrategy, TransformMethod};

use super::exits::{DRIFT, FIELD, FORECAST, GRADE, NOISE, QUIET, RAISED, SKIPPED, TRIGGER};
use super::{Reading, METHODS};
use crate::fresh;
use crate::random::Random;
use crate::values;

const STRATEGIES: [ScoringStrategy; 2] = [
    ScoringStrategy::EXPECTED_INVERSE_HEIGHT,
    ScoringStrategy::DISTANCE,
];

/// Exits that a sequence tries at random, and those of one whose level has changed for good.
const MIXED: [usize; 12] = [
    SKIPPED, QUIET, GRADE, GRADE, NOISE, FIELD, TRIGGER, TRIGGER, FORECAST, DRIFT, RAISED, RAISED,
];
const CHANGED: [usize; 6] = [DRIFT, DRIFT, DRIFT, DRIFT, DRIFT, SKIPPED];

/// The largest score that is made on purpose: growing scores stay finite.
const LARGEST: f32 = 1e30;

/// What the readings of one sequence have in common, and where it stands.
pub struct Maker {
    pub shingle: usize,
    pub base: usize,
    pub auto_adjust: bool,
    pub discount: f64,
    strategy: ScoringStrategy,
    method: TransformMethod,
    /// The exits that are tried, and how many calm readings come first.
    aims: &'static [usize],
    calm: usize,
    /// Now and then any finite float stands in a list.
    wild: bool,
    made: usize,
    seen: usize,
    last: Descriptor,
}

fn around(random: &mut Random, middle: f64, width: f64) -> f32 {
    (middle + width * (2.0 * random.fraction() - 1.0)) as f32
}

fn list(random: &mut Random, n: usize, middle: f64, width: f64) -> Vec<f32> {
    (0..n).map(|_| around(random, middle, width)).collect()
}

fn beside(random: &mut Random, point: &[f32], width: f64) -> Vec<f32> {
    let near = |&x: &f32| around(random, x as f64, width);
    point.iter().map(near).collect()
}

/// Contributions of one size, or a few large ones among small ones.
fn vector(random: &mut Random, n: usize) -> DiVector {
    let size = random.of(&[0.0, 1e-3, 0.1, 1.0, 1.0, 10.0]);
    let power = random.of(&[1, 8]);
    let mut half = || {
        (0..n)
            .map(|_| size * random.fraction().powi(power))
            .collect()
    };
    DiVector {
        high: half(),
        low: half(),
    }
}

/// A vector that differs little from another.
fn alike(random: &mut Random, v: &DiVector) -> DiVector {
    let width = random.of(&[0.0, 1e-6, 1e-2]);
    let mut half = |xs: &[f64]| {
        let near = |x: &f64| x + width * random.fraction();
        xs.iter().map(near).collect()
    };
    DiVector {
        high: half(&v.high),
        low: half(&v.low),
    }
}

/// Any size in its range, most often a small one.
fn size(random: &mut Random, most: u64, small: &[usize]) -> usize {
    match random.below(4) {
        0 => random.below(most) as usize + 1,
        _ => random.of(small),
    }
}

impl Maker {
    pub fn new(random: &mut Random) -> Self {
        Maker {
            shingle: size(random, 64, &[1, 2, 3, 4, 5, 8]),
            base: size(random, 16, &[1, 1, 2, 3, 4]),
            auto_adjust: random.once_in(2),
            discount: random.of(&[0.0, 0.01, 0.1, 0.5]),
            strategy: random.of(&STRATEGIES),
            method: random.of(&METHODS),
            aims: random.of(&[&MIXED[..], &MIXED[..], &CHANGED[..]]),
            calm: random.of(&[0, 12, 12, 12]),
            wild: random.once_in(8),
            made: 0,
            seen: random.below(1000) as usize + 1,
            last: Descriptor::default(),
        }
    }

    pub fn chain(&self) -> PredictorCorrector {
        fresh::chain(self.discount, self.auto_adjust, self.base)
    }

    /// The threshold that the next score is held against.
    fn line(&self, chain: &PredictorCorrector) -> f32 {
        let t = BasicThresholder::of_numbers(chain.state().basic_thresholder);
        if self.strategy == ScoringStrategy::EXPECTED_INVERSE_HEIGHT {
            let (line, _) = t.threshold_and_grade(f32::NEG_INFINITY, self.method, 0, self.shingle);
            return line;
        }
        t.threshold()
    }

    fn score(&self, random: &mut Random, aim: usize, line: f32) -> f32 {
        if self.made <= self.calm {
            return around(random, 1.0, 0.1);
        }
        let x = match (aim, random.below(8)) {
            (SKIPPED, n) => [0.0, -0.0][n as usize % 2],
            (QUIET, _) => line * random.fraction() as f32,
            (DRIFT, _) => line.max(self.last.score) * around(random, 1.1, 0.1),
            (_, 0) => values::step32(line, values::few(random) as i32),
            (_, 1) => around(random, 4.0, 2.5),
            _ => line * around(random, 1.5, 0.5),
        };
        if x.is_finite() && x < LARGEST {
            x
        } else {
            around(random, 1.0, 0.1)
        }
    }

    fn corrected(&self, random: &mut Random, aim: usize, line: f32) -> f32 {
        let x = match aim {
            GRADE => line * random.fraction() as f32,
            _ => line * around(random, 1.5, 0.5),
        };
        if x.is_finite() {
            x
        } else {
            around(random, 2.0, 1.5)
        }
    }

    /// How many neighbours are lent: few, or up to the most, seldom of long points.
    fn crowd(&self, random: &mut Random) -> usize {
        let rare = if self.shingle * self.base > 64 {
            512
        } else {
            16
        };
        if random.once_in(rare) {
            random.below(257) as usize
        } else {
            random.below(5) as usize
        }
    }

    /// A point, a median and neighbours: far apart, or near enough to explain each other.
    fn places(&self, random: &mut Random, aim: usize) -> (Vec<f32>, Vec<f32>, Vec<Vec<f32>>) {
        let n = self.shingle * self.base;
        let point = match aim {
            NOISE => list(random, n, 0.0, 1e-4),
            DRIFT => list(random, n, 2.0, 0.01),
            _ => list(random, n, 0.0, 2.0),
        };
        let median = match aim {
            FORECAST => beside(random, &point, 1e-2),
            DRIFT => list(random, n, -3.0, 0.01),
            _ => beside(random, &point, 90.0),
        };
        let width = if aim == FIELD { 1e-2 } else { 90.0 };
        // Beyond this test no neighbours at all would explain the point.
        let least = (aim > FIELD) as usize;
        let crowd = self.crowd(random).max(least);
        let neighbours = (0..crowd).map(|_| beside(random, &point, width)).collect();
        (point, median, neighbours)
    }

    /// The last descriptor: the sequence's own, or one with an anomaly a few readings ago.
    fn before(&self, random: &mut Random, aim: usize) -> Descriptor {
        let mut last = self.last.clone();
        let wanted = matches!(aim, GRADE | TRIGGER);
        if (wanted && random.once_in(2)) || random.once_in(32) {
            let n = self.shingle * self.base;
            let gap = random.below(self.shingle as u64 + 1) as usize + 1;
            last.last_anomaly = Some(AnomalyInformation {
                expected_rcf_point: list(random, n, 0.0, 2.0),
                anomalous_rcf_point: list(random, n, 0.0, 2.0),
                relative_index: -(random.below(self.shingle as u64) as i32)
                    * random.below(2) as i32,
                values_seen: self.seen.saturating_sub(gap),
                attribution: (!random.once_in(4)).then(|| vector(random, 1)),
                score: around(random, 2.0, 2.5),
                ..no_anomaly()
            });
        }
        last
    }

    pub fn next(&mut self, random: &mut Random, chain: &PredictorCorrector) -> Reading {
        self.made += 1;
        let aim = if self.made <= self.calm && !random.once_in(20) {
            QUIET
        } else {
            random.of(self.aims)
        };
        self.seen += match aim {
            NOISE => self.shingle + 1,
            _ => random.of(&[1, 1, 1, 1, 2, 5, 70]),
        };
        let line = self.line(chain);
        let (point, median, neighbours) = self.places(random, aim);
        let attribution = vector(random, point.len());
        let small = random.of(&[0.0, 0.01, 0.5]);
        let noise = random.of(&[0.1, 0.1, 0.0]);
        let mut reading = Reading {
            shingle: self.shingle,
            base: self.base,
            strategy: self.strategy,
            method: self.method,
            time_augmented: random.once_in(2),
            values_seen: self.seen,
            scale: list(random, self.base, 1.0, small),
            shift: list(random, self.base, 0.0, small),
            deviations: list(random, self.base, noise, small),
            score: self.score(random, aim, line),
            corrected_score: self.corrected(random, aim, line),
            expected_attribution: match aim {
                TRIGGER => alike(random, &attribution),
                _ => vector(random, point.len()),
            },
            attribution,
            point,
            median,
            neighbours,
            last: self.before(random, aim),
        };
        if random.once_in(4) {
            self.edge(random, aim, line, &mut reading);
        }
        self.stray(random, &mut reading);
        reading
    }

    /// Puts a reading at the edge of the noise test, or of one of the trigger's two.
    fn edge(&self, random: &mut Random, aim: usize, line: f32, reading: &mut Reading) {
        let n = reading.point.len();
        let difference = reading.gap() * self.base;
        let few = values::few(random) as i32;
        let by = match (aim, &reading.last.last_anomaly) {
            (NOISE, _) => 1e-3,
            (TRIGGER, Some(a)) if random.once_in(2) => 0.3 * a.score.abs(),
            (TRIGGER, Some(_)) => line * difference as f32 / n as f32,
            _ => return,
        };
        let by = values::step32(by, few);
        if aim == NOISE {
            reading.point.fill(by);
        } else if by.is_finite() {
            reading.attribution.low[n - 1] = 0.0;
            reading.expected_attribution = reading.attribution.clone();
            reading.expected_attribution.low[n - 1] = by as f64;
        }
    }

    /// Now and then the other strategy, and in a wild sequence any finite floats.
    fn stray(&self, random: &mut Random, reading: &mut Reading) {
        if random.once_in(24) {
            reading.strategy = random.of(&STRATEGIES);
        }
        if self.wild {
            reading.strew(random);
        }
    }

    /// Makes a judged reading the last one, and a raised one the last anomaly.
    pub fn judged(&mut self, reading: &Reading, result: &Descriptor) {
        self.last.score = result.score;
        self.last.threshold = result.threshold;
        self.last.scoring_strategy = result.scoring_strategy;
        // A threshold that is not finite would have the next reading refused.
        if !self.last.threshold.is_finite() {
            self.last.threshold = 0.0;
        }
        if let Some(expected) = &result.expected_rcf_point {
            self.last.last_anomaly = Some(AnomalyInformation {
                expected_rcf_point: expected.clone(),
                anomalous_rcf_point: reading.point.clone(),
                relative_index: result.relative_index,
                values_seen: reading.values_seen,
                attribution: result.attribution.clone(),
                score: result.score,
                grade: result.anomaly_grade,
                ..no_anomaly()
            });
        }
    }
}

/// What the chain does not read of an anomaly.
pub fn no_anomaly() -> AnomalyInformation {
    AnomalyInformation {
        expected_rcf_point: vec![],
        anomalous_rcf_point: vec![],
        relative_index: 0,
        values_seen: 0,
        attribution: None,
        score: 0.0,
        grade: 0.0,
        expected_timestamp: 0,
        relevant_attribution: None,
        time_attribution: 0.0,
        past_values: vec![],
        past_timestamp: 0,
        expected_values_list: vec![],
        likelihood_of_values: vec![],
    }
}
