//! The thresholder's calls, ours and the Rust's, and states and arguments for them.

use rcflib::trcf::basicthresholder::{BasicThresholder, Numbers};

use crate::bytes::Bytes;
use crate::fresh;
use crate::ours;
use crate::random::Random;
use crate::readings::METHODS;
use crate::refusals::{COUNT, HORIZON, RANGE};
use crate::statistics::{self, countable, discount};
use crate::values;

/// A call on a stored thresholder, with its arguments. A method is its code.
#[derive(Clone, Copy, Debug)]
pub enum Call {
    IsDeviationReady,
    Threshold,
    PrimaryGrade(f32),
    PrimaryThresholdAndGrade(f32),
    ThresholdAndGrade(f32, u8, usize),
    ThresholdAndGradeWithFactor(f32, f32, u8, usize),
    UpdateThreshold(f32),
    UpdatePrimary(f64),
    UpdateBoth(f32, f32),
    Update(f32, f32, f32),
    SetScoreDifferencing(f32),
    SetZFactor(f32),
    SetLowerThreshold(f32),
    SetAbsoluteThreshold(f32),
    SetInitialThreshold(f32),
}

use Call::*;

/// The floats that a call answers, or a yes/no, as their bytes with the plain NaN.
fn floats(list: &[f32]) -> Vec<u8> {
    list.iter().flat_map(|x| x.plain().bytes()).collect()
}

fn pair((threshold, grade): (f32, f32)) -> Vec<u8> {
    floats(&[threshold, grade])
}

impl Call {
    /// How many bytes are answered beside the state.
    pub fn room(&self) -> usize {
        match self {
            IsDeviationReady => 1,
            Threshold | PrimaryGrade(_) => 4,
            PrimaryThresholdAndGrade(_)
            | ThresholdAndGrade(..)
            | ThresholdAndGradeWithFactor(..) => 8,
            _ => 0,
        }
    }

    /// Our answer: the refusal's number or 0.
    pub fn ours(&self, state: &mut [u8], out: &mut [u8]) -> u8 {
        match *self {
            IsDeviationReady => ours::is_deviation_ready(state, out),
            Threshold => ours::threshold(state, out),
            PrimaryGrade(x) => ours::primary_grade(state, x, out),
            PrimaryThresholdAndGrade(x) => ours::primary_threshold_and_grade(state, x, out),
            ThresholdAndGrade(x, m, n) => ours::threshold_and_grade(state, x, m, n, out),
            ThresholdAndGradeWithFactor(x, z, m, n) => {
                ours::threshold_and_grade_with_factor(state, x, z, m, n, out)
            }
            UpdateThreshold(x) => ours::update_threshold(state, x),
            UpdatePrimary(x) => ours::update_primary(state, x),
            UpdateBoth(a, b) => ours::update_both(state, a, b),
            Update(a, b, c) => ours::update(state, a, b, c),
            SetScoreDifferencing(x) => ours::set_score_differencing(state, x),
            SetZFactor(x) => ours::set_z_factor(state, x),
            SetLowerThreshold(x) => ours::set_lower_threshold(state, x),
            SetAbsoluteThreshold(x) => ours::set_absolute_threshold(state, x),
            SetInitialThreshold(x) => ours::set_initial_threshold(state, x),
        }
    }

    /// The number that refuses the call, 0 where the Rust can be called. The Rust panics on a
    /// horizon outside 0 to 1, and has no refusal for a code or for counts.
    pub fn refusal(&self, s: &Numbers) -> u8 {
        let statistics = [
            &s.primary_deviation,
            &s.secondary_deviation,
            &s.threshold_deviation,
        ];
        let counts = countable(s.count) && statistics.iter().all(|d| countable(d.count));
        match *self {
            ThresholdAndGrade(_, m, _) | ThresholdAndGradeWithFactor(_, _, m, _) if m > 5 => RANGE,
            UpdateThreshold(_) | UpdatePrimary(_) | UpdateBoth(..) | Update(..) if !counts => COUNT,
            SetScoreDifferencing(x) if !(0.0..=1.0).contains(&x) => HORIZON,
            _ => 0,
        }
    }

    /// The Rust's answer beside the state, which it may change.
    pub fn rust(&self, s: &mut BasicThresholder) -> Vec<u8> {
        match *self {
            IsDeviationReady => return vec![s.is_deviation_ready() as u8],
            Threshold => return floats(&[s.threshold()]),
            PrimaryGrade(x) => return floats(&[s.primary_grade(x)]),
            PrimaryThresholdAndGrade(x) => return pair(s.primary_threshold_and_grade(x)),
            ThresholdAndGrade(x, m, n) => {
                return pair(s.threshold_and_grade(x, METHODS[m as usize], 0, n))
            }
            ThresholdAndGradeWithFactor(x, z, m, n) => {
                let method = METHODS[m as usize];
                return pair(s.threshold_and_grade_with_factor(x, z, method, 0, n));
            }
            UpdateThreshold(x) => s.update_threshold(x),
            UpdatePrimary(x) => s.update_primary(x),
            UpdateBoth(a, b) => s.update_both(a, b),
            Update(a, b, c) => s.update(a, b, c),
            SetScoreDifferencing(x) => s.set_score_differencing(x),
            SetZFactor(x) => s.set_z_factor(x),
            SetLowerThreshold(x) => s.set_lower_threshold(x),
            SetAbsoluteThreshold(x) => s.set_absolute_threshold(x),
            SetInitialThreshold(x) => s.set_initial_threshold(x),
        }
        Vec::new()
    }
}

/// A score at the thresholds of a state or beside them, between them and the largest grade, or any.
fn score(random: &mut Random, s: &Numbers, notable: &[f32]) -> f32 {
    let t = BasicThresholder::of_numbers(s.clone());
    let method = random.of(&METHODS);
    let (threshold, _) = t.threshold_and_grade(f32::NEG_INFINITY, method, 0, shingle(random));
    match random.below(5) {
        0 => values::step32(threshold, values::few(random) as i32),
        1 => values::step32(t.threshold(), values::few(random) as i32),
        2 => threshold + 2.0 * random.fraction() as f32 * (threshold - t.primary_mean() as f32),
        3 => t.primary_mean() as f32 + 4.0 * random.fraction() as f32,
        _ => values::any32(random, notable),
    }
}

fn shingle(random: &mut Random) -> usize {
    match random.below(4) {
        0 | 1 => 1,
        2 => random.below(12) as usize,
        _ => random.word() as usize,
    }
}

/// A code, now and then one that no method has.
fn method(random: &mut Random) -> u8 {
    if random.once_in(32) {
        random.word() as u8
    } else {
        random.below(6) as u8
    }
}

/// A setting that is near its default, or any float.
fn setting(random: &mut Random, notable: &[f32]) -> f32 {
    match random.below(3) {
        0 => values::any32(random, notable),
        1 => random.fraction() as f32,
        _ => 4.0 * random.fraction() as f32,
    }
}

/// The calls that read.
pub fn questions(random: &mut Random, s: &Numbers, notable: &[f32]) -> [Call; 6] {
    let x = score(random, s, notable);
    let (m, n) = (method(random), shingle(random));
    [
        IsDeviationReady,
        Threshold,
        PrimaryGrade(x),
        PrimaryThresholdAndGrade(score(random, s, notable)),
        ThresholdAndGrade(x, m, n),
        ThresholdAndGradeWithFactor(x, setting(random, notable), m, n),
    ]
}

/// The calls that set.
pub fn settings(random: &mut Random, notable: &[f32]) -> [Call; 5] {
    [
        SetScoreDifferencing(setting(random, notable)),
        SetZFactor(setting(random, notable)),
        SetLowerThreshold(setting(random, notable)),
        SetAbsoluteThreshold(setting(random, notable)),
        SetInitialThreshold(setting(random, notable)),
    ]
}

/// The calls that count scores, which `next` makes.
pub fn updates(mut next: impl FnMut() -> f32) -> [Call; 4] {
    [
        UpdateThreshold(next()),
        UpdatePrimary(next() as f64 * (1.0 + 1e-9)),
        UpdateBoth(next(), next()),
        Update(next(), next(), next()),
    ]
}

/// A new state by a discount that is taken.
pub fn fresh(random: &mut Random) -> Numbers {
    let adjust = random.once_in(2);
    let made = fresh::thresholder(discount(random), adjust);
    made.expect("a discount below 1").numbers()
}

/// Any float, or one as a setting has it.
fn any(random: &mut Random, notable: &[f32]) -> f32 {
    if random.once_in(2) {
        values::any32(random, notable)
    } else {
        2.0 * random.fraction() as f32
    }
}

/// A state of any numbers, whether updates lead there or not.
pub fn arbitrary(random: &mut Random, notable32: &[f32], notable64: &[f64]) -> Numbers {
    Numbers {
        elasticity: any(random, notable32),
        count: statistics::count(random),
        score_differencing: any(random, notable32),
        last_score: any(random, notable32),
        primary_deviation: statistics::any(random, notable64),
        secondary_deviation: statistics::any(random, notable64),
        threshold_deviation: statistics::any(random, notable64),
        auto_threshold: random.once_in(2),
        absolute_threshold: any(random, notable32),
        absolute_score_fraction: any(random, notable32),
        lower_threshold: any(random, notable32),
        factor_adjustment_threshold: any(random, notable32),
        initial_threshold: any(random, notable32),
        z_factor: any(random, notable32),
    }
}
