//! States and questions of the part `grades`, with both sides' answers.

pub mod kinds;
pub mod making;
mod order;

use rcflib::trcf::basicthresholder::{BasicThresholder, Numbers};

use crate::bytes::Bytes;
use crate::ours;
use crate::readings::METHODS;

/// Where a state comes from: calls on a new one, any numbers with the thresholder's count for its
/// primary statistic's, or any numbers.
#[derive(Clone, Copy, PartialEq)]
pub enum Source {
    Calls,
    Agreeing,
    Any,
}

impl Source {
    pub fn name(self) -> &'static str {
        ["by calls", "counts agree", "any"][self as usize]
    }
}

/// A state as the Rust has it and as our bytes. The numbers are the Rust's.
pub struct State {
    pub source: Source,
    pub numbers: Numbers,
    rust: BasicThresholder,
    bytes: Vec<u8>,
}

/// What a grade depends on beside the state and the score. The method is its code.
#[derive(Clone, Copy, Debug)]
pub struct Question {
    pub factor: f32,
    pub method: u8,
    pub shingle: usize,
}

/// Threshold and grade.
pub type Pair = (f32, f32);

impl State {
    pub fn of_numbers(source: Source, numbers: Numbers) -> State {
        State {
            source,
            bytes: numbers.bytes(),
            rust: BasicThresholder::of_numbers(numbers.clone()),
            numbers,
        }
    }

    /// One that each side's own calls have led to.
    pub fn of_calls(rust: BasicThresholder, bytes: Vec<u8>) -> State {
        State {
            source: Source::Calls,
            numbers: rust.numbers(),
            rust,
            bytes,
        }
    }

    /// The numbers that our bytes hold.
    pub fn our_numbers(&self) -> Numbers {
        Numbers::get(&self.bytes)
    }

    pub fn is_ready(&self) -> bool {
        self.rust.is_deviation_ready()
    }

    /// Whether the absolute threshold is eased by a low mean.
    pub fn is_eased(&self) -> bool {
        let n = &self.numbers;
        n.auto_threshold && n.count >= 20 && self.primary().0 < n.factor_adjustment_threshold
    }

    /// What calls keep, and the proof of rising grades needs.
    pub fn counts_agree(&self) -> bool {
        self.numbers.count == self.numbers.primary_deviation.count
    }

    pub fn rust(&self, score: f32, q: &Question) -> Pair {
        let method = METHODS[q.method as usize];
        self.rust
            .threshold_and_grade_with_factor(score, q.factor, method, 0, q.shingle)
    }

    /// The refusal's number, and our answer.
    pub fn ours(&self, score: f32, q: &Question) -> (u8, Pair) {
        let mut out = [0xa5; 8];
        let (z, m, n) = (q.factor, q.method, q.shingle);
        let refusal = ours::threshold_and_grade_with_factor(&self.bytes, score, z, m, n, &mut out);
        (refusal, (f32::get(&out), f32::get(&out[4..])))
    }

    /// DISTANCE's threshold and grade.
    pub fn rust_distance(&self, score: f32) -> Pair {
        (self.rust.threshold(), self.rust.primary_grade(score))
    }

    pub fn our_distance(&self, score: f32) -> (u8, Pair) {
        let (mut threshold, mut grade) = ([0xa5; 4], [0xa5; 4]);
        let refusals = [
            ours::threshold(&self.bytes, &mut threshold),
            ours::primary_grade(&self.bytes, score, &mut grade),
        ];
        let pair = (f32::get(&threshold), f32::get(&grade));
        (refusals[0].max(refusals[1]), pair)
    }

    /// Mean and deviation of the primary statistic, as DISTANCE's threshold takes them.
    pub fn primary(&self) -> (f32, f32) {
        let d = &self.numbers.primary_deviation;
        (d.mean() as f32, d.deviation() as f32)
    }
}
