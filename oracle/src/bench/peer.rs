//! The fair peer: the Rust's detect_and_modify behind document 01's refusals 2 to 6, as a Rust
//! programmer would write them. The checks read what ours is handed: slices of their own memory.

use rcflib::common::descriptor::Descriptor;
use rcflib::rcf::RCFLarge;
use rcflib::trcf::predictorcorrector::PredictorCorrector;

use crate::chain::Handed;
use crate::readings::Reading;
use crate::refusals::{COUNT, LENGTH, NOT_FINITE, RANGE, VALUES_SEEN};

/// How a list is tested for floats that are not finite.
pub trait Finite {
    fn singles(list: &[f32]) -> bool;
    fn doubles(list: &[f64]) -> bool;
}

/// The test as one writes it: it stops at the first float that is not finite.
pub struct All;

impl Finite for All {
    fn singles(list: &[f32]) -> bool {
        list.iter().all(|x| x.is_finite())
    }

    fn doubles(list: &[f64]) -> bool {
        list.iter().all(|x| x.is_finite())
    }
}

/// A test without an early end, of which the compiler takes several floats at once.
pub struct Fold;

impl Finite for Fold {
    fn singles(list: &[f32]) -> bool {
        list.iter().fold(true, |ok, x| ok & x.is_finite())
    }

    fn doubles(list: &[f64]) -> bool {
        list.iter().fold(true, |ok, x| ok & x.is_finite())
    }
}

/// What one judgment of the peer works on.
pub struct Peer {
    pub chain: PredictorCorrector,
    pub base: usize,
    pub result: Descriptor,
    pub forest: RCFLarge<u64, u64>,
    pub lent: Handed,
}

impl Peer {
    /// The refusal's number, or 0 and the Rust's judgment.
    #[inline(never)]
    pub fn judge<F: Finite>(&mut self, reading: &Reading) -> u8 {
        let number = self.refusal::<F>(reading);
        if number == 0 {
            self.chain
                .detect_and_modify(
                    &mut self.result,
                    &reading.last,
                    reading.shingle,
                    &self.forest,
                )
                .expect("the stand-in forest refuses nothing");
        }
        number
    }

    fn refusal<F: Finite>(&self, reading: &Reading) -> u8 {
        let sizes = (1..=64).contains(&reading.shingle) && (1..=16).contains(&reading.base);
        if !sizes || reading.base != self.base {
            RANGE
        } else if !self.lengths_ok(reading) {
            LENGTH
        } else if !self.is_finite::<F>(reading) {
            NOT_FINITE
        } else if !self.seen_ok(reading) {
            VALUES_SEEN
        } else if !self.chain.counts_ok() {
            COUNT
        } else {
            0
        }
    }

    fn lengths_ok(&self, reading: &Reading) -> bool {
        let d = reading.shingle * reading.base;
        let Handed {
            points: [point, scale, shift, deviations, expected, anomalous, median, neighbours],
            vectors,
            ..
        } = &self.lent;
        let out = [&self.lent.out_high, &self.lent.out_low];
        [point, median, &self.lent.expected]
            .iter()
            .all(|x| x.len() == d)
            && vectors.iter().chain(out).all(|x| x.len() == d)
            && [scale, shift, deviations]
                .iter()
                .all(|x| x.len() == reading.base)
            && neighbours.len() % d == 0
            && neighbours.len() / d <= 256
            && (reading.last.last_anomaly.is_none()
                || (expected.len() == d && anomalous.len() == d))
    }

    fn is_finite<F: Finite>(&self, reading: &Reading) -> bool {
        let [point, scale, shift, deviations, expected, anomalous, median, neighbours] =
            &self.lent.points;
        let last = &reading.last;
        [
            reading.score,
            reading.corrected_score,
            last.score,
            last.threshold,
        ]
        .iter()
        .all(|x| x.is_finite())
            && last.last_anomaly.as_ref().is_none_or(|a| {
                a.score.is_finite() && F::singles(expected) && F::singles(anomalous)
            })
            && [point, scale, shift, deviations, median, neighbours]
                .iter()
                .all(|list| F::singles(list))
            && self.lent.vectors.iter().all(|list| F::doubles(list))
    }

    fn seen_ok(&self, reading: &Reading) -> bool {
        let seen = self.result.values_seen;
        let last = reading.last.last_anomaly.as_ref();
        (1..=16_777_216).contains(&seen) && last.is_none_or(|a| a.values_seen < seen)
    }
}
