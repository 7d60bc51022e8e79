//! Judging. Ours is the C function on bytes and slices: entry checks, reading the state and writing
//! it are in its time. The Rust's is detect_and_modify on its own records, over a stand-in forest
//! that moves prepared results out and records nothing; beside it stands the same behind document
//! 01's entry checks, which test finiteness in two forms. Preparing is timed on no side.

use std::hint::black_box;

use rcflib::common::descriptor::Descriptor;
use rcflib::common::divector::DiVector;
use rcflib::rcf::RCFLarge;
use rcflib::trcf::predictorcorrector::PredictorCorrector;
use rcflib::trcf::types::{ScoringStrategy, TransformMethod};

use super::peer::{All, Finite, Fold, Peer};
use super::timing::{against_checked, checked_heading, pass};
use crate::chain::{said, Handed, STATE};
use crate::fresh;
use crate::random::Random;
use crate::readings::exits::{exit, FORECAST, QUIET, RAISED};
use crate::readings::{states, verdict, Reading};
use crate::same::Same;

/// Shingle and base of D 1, 8, 64 and 1024.
const SIZES: [(usize, usize); 4] = [(1, 1), (8, 1), (16, 4), (64, 16)];

/// Calm scores counted before, and the score of a raised reading.
const COUNTED: usize = 30;
pub const RAISING: f32 = 5.0;

/// One row of the table.
#[derive(Clone, Copy)]
pub struct Row {
    pub size: (usize, usize),
    pub strategy: ScoringStrategy,
    pub raised: bool,
    pub neighbours: usize,
}

impl Row {
    /// The exit that the row's reading takes. A point of one number is its own expected point.
    fn exit(&self) -> usize {
        match (self.raised, self.size) {
            (false, _) => QUIET,
            (true, (1, 1)) => FORECAST,
            _ => RAISED,
        }
    }

    pub fn name(&self) -> String {
        let strategy = match self.strategy {
            ScoringStrategy::DISTANCE => "DISTANCE",
            _ => "height",
        };
        let exit = match self.exit() {
            QUIET => "quiet",
            FORECAST => "forecast",
            _ => "raised",
        };
        let d = self.size.0 * self.size.1;
        format!("{strategy}, {exit}, D {d}, {} nbrs", self.neighbours)
    }

    /// A reading with the given score, whose last row stands out and lies far from its neighbours.
    pub fn reading(&self, random: &mut Random, score: f32) -> Reading {
        let (shingle, base) = self.size;
        let n = shingle * base;
        let mut list = |n: usize, middle: f32| -> Vec<f32> {
            (0..n).map(|_| middle + random.fraction() as f32).collect()
        };
        let mut high = vec![0.001; n];
        high[n - 1] = 5.0;
        Reading {
            shingle,
            base,
            strategy: self.strategy,
            method: TransformMethod::NORMALIZE,
            time_augmented: false,
            values_seen: 1000,
            point: list(n, 1.0),
            scale: vec![1.0; base],
            shift: vec![0.0; base],
            deviations: vec![0.1; base],
            score,
            corrected_score: score,
            attribution: DiVector {
                high,
                low: vec![0.001; n],
            },
            expected_attribution: DiVector {
                high: vec![0.001; n],
                low: vec![0.001; n],
            },
            median: list(n, -9.0),
            neighbours: (0..self.neighbours).map(|_| list(n, 20.0)).collect(),
            last: Descriptor {
                scoring_strategy: self.strategy,
                ..Descriptor::default()
            },
        }
    }

    /// The state before: auto adjust where there are neighbours to look at.
    pub fn chain(&self, random: &mut Random) -> PredictorCorrector {
        let mut chain = fresh::chain(0.01, self.neighbours > 0, self.size.1);
        for _ in 0..COUNTED {
            let score = 1.0 + 0.1 * random.fraction() as f32;
            self.reading(random, score).judge(&mut chain);
        }
        chain
    }

    /// The row's reading in the state before it.
    pub fn prepared(&self, random: &mut Random) -> Prepared {
        let chain = self.chain(random);
        let score = if self.raised { RAISING } else { 1.02 };
        let reading = self.reading(random, score);
        Prepared::new(reading, chain, (&self.name(), self.exit()))
    }

    fn run(&self, random: &mut Random) {
        let prepared = self.prepared(random);
        let d = prepared.reading.point.len();
        let calls = if d > 64 { 16 } else { 128 };
        let ours = || prepared.ours(calls);
        let rust = || prepared.rust(calls);
        let all = || prepared.checked::<All>(calls);
        let fold = || prepared.checked::<Fold>(calls);
        against_checked(&self.name(), ours, rust, [&all, &fold]);
    }
}

/// A reading, the state before it on the Rust's side, and both as ours is handed them.
pub struct Prepared {
    reading: Reading,
    chain: PredictorCorrector,
    pub handed: Handed,
}

impl Prepared {
    /// Both sides take this exit and say the same.
    pub fn new(
        reading: Reading,
        chain: PredictorCorrector,
        (name, way): (&str, usize),
    ) -> Prepared {
        let mut state = vec![0; STATE];
        states::put(&chain.state(), reading.base, &mut state);
        let handed = Handed::new(&state, &reading);
        let (result, calls) = reading.judge(&mut chain.clone());
        assert_eq!(exit(&result, &calls), way, "{name}");
        let mut judged = handed.clone();
        assert_eq!(judged.judge(), 0, "{name}");
        assert!(said(&judged.verdict).0.same(&verdict(&result)), "{name}");
        Prepared {
            reading,
            chain,
            handed,
        }
    }

    /// The time of our judgment.
    pub fn ours(&self, calls: usize) -> f64 {
        let mut batch = vec![self.handed.clone(); calls];
        pass(calls, || {
            for h in &mut batch {
                black_box(h.judge());
            }
        })
    }

    /// What one judgment of the Rust works on.
    fn one(&self) -> (PredictorCorrector, Descriptor, RCFLarge<u64, u64>) {
        let forest = RCFLarge::unwatched(self.reading.point.len(), self.reading.lent());
        (self.chain.clone(), self.reading.descriptor(), forest)
    }

    /// The time of the Rust's.
    pub fn rust(&self, calls: usize) -> f64 {
        let Reading { last, shingle, .. } = &self.reading;
        let mut batch: Vec<_> = (0..calls).map(|_| self.one()).collect();
        pass(calls, || {
            for (chain, result, forest) in &mut batch {
                let done = chain.detect_and_modify(result, last, *shingle, forest);
                let _ = black_box(done);
            }
        })
    }

    /// The time of the Rust's behind entry checks.
    fn checked<F: Finite>(&self, calls: usize) -> f64 {
        let peer = || {
            let (chain, result, forest) = self.one();
            Peer {
                chain,
                base: self.reading.base,
                result,
                forest,
                lent: self.handed.clone(),
            }
        };
        let mut batch: Vec<Peer> = (0..calls).map(|_| peer()).collect();
        pass(calls, || {
            for peer in &mut batch {
                assert_eq!(black_box(peer.judge::<F>(black_box(&self.reading))), 0);
            }
        })
    }
}

pub fn run(random: &mut Random) {
    checked_heading();
    for strategy in [
        ScoringStrategy::DISTANCE,
        ScoringStrategy::EXPECTED_INVERSE_HEIGHT,
    ] {
        for raised in [false, true] {
            for neighbours in [0, 50] {
                for size in SIZES {
                    let row = Row {
                        size,
                        strategy,
                        raised,
                        neighbours,
                    };
                    row.run(random);
                }
            }
        }
    }
}
