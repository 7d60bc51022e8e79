//! States, questions and lists of scores for the part `grades`.

use rcflib::trcf::basicthresholder::{BasicThresholder, Numbers};

use super::order::{beside, first};
use super::{Question, Source, State};
use crate::bytes::Bytes;
use crate::ours;
use crate::random::Random;
use crate::statistics;
use crate::thresholders::{self, Call};
use crate::values::{any32, any64, few, list32, list64};

/// How many scores a list has.
pub const SCORES: usize = 14;
pub const DISTANCE_SCORES: usize = 12;

/// The most calls that lead to a state.
const CALLS: u64 = 40;

/// Floats that a threshold or a factor rarely is.
const RARE: [f32; 12] = [
    f32::NAN,
    f32::INFINITY,
    f32::NEG_INFINITY,
    0.0,
    -0.0,
    1e-45,
    -1e-45,
    f32::MIN_POSITIVE,
    -f32::MIN_POSITIVE,
    f32::MAX,
    -1.0,
    -0.8,
];

/// A few of the least float above 0, or of the largest below. What a mean like this is scaled to may
/// be -0.
fn tiny(random: &mut Random) -> f64 {
    few(random) as f64 * 1e-45f32 as f64
}

/// A setting near its default, a rare one or any.
fn setting(random: &mut Random) -> f32 {
    match random.below(4) {
        0 => random.of(&RARE),
        1 => any32(random, list32()),
        2 => random.fraction() as f32,
        _ => 4.0 * random.fraction() as f32,
    }
}

/// The scores of a run: at a level, of which one in `wild` is any float, none if that is 0.
struct Scores {
    level: f64,
    spread: f64,
    wild: u64,
}

impl Scores {
    fn new(random: &mut Random) -> Scores {
        let scale = match random.below(4) {
            0 => 2f64.powi(random.below(280) as i32 - 151),
            1 => -1.0,
            _ => 1.0,
        };
        let mut scores = Scores {
            level: scale * 3.0 * random.fraction(),
            spread: scale * random.of(&[0.0, 1e-3, 0.1, 1.0]),
            wild: random.of(&[0, 0, 0, 0, 30, 8, 1]),
        };
        if random.once_in(16) {
            (scores.level, scores.spread) = (tiny(random), 0.0);
        }
        scores
    }

    fn next(&self, random: &mut Random) -> f64 {
        if self.wild == 0 || !random.once_in(self.wild) {
            self.level + self.spread * random.fraction()
        } else if random.once_in(2) {
            any64(random, list64())
        } else {
            any32(random, list32()) as f64
        }
    }

    /// A call that counts a score, or the gap alone.
    fn update(&self, random: &mut Random) -> Call {
        let [a, b, c] = [0; 3].map(|_| self.next(random));
        match random.below(10) {
            0 => Call::UpdateThreshold(a as f32),
            1..=3 => Call::UpdatePrimary(a),
            4..=6 => Call::UpdateBoth(a as f32, b as f32),
            _ => Call::Update(a as f32, b as f32, c as f32),
        }
    }
}

/// A call that sets, most often one of the two thresholds that a grade depends on.
fn set(random: &mut Random) -> Call {
    let (x, horizon) = (setting(random), random.fraction() as f32);
    match random.below(8) {
        0 => Call::SetScoreDifferencing(random.of(&[0.0, -0.0, 1.0, horizon])),
        1 => Call::SetZFactor(x),
        2 => Call::SetLowerThreshold(x),
        3..=5 => Call::SetAbsoluteThreshold(x),
        _ => Call::SetInitialThreshold(x),
    }
}

/// A state that calls lead to from a new one, each side's from its own, and whether all of ours were
/// answered. What a side would refuse is not called.
pub fn by_calls(random: &mut Random) -> (State, bool) {
    let new = thresholders::fresh(random);
    let mut bytes = vec![0xa5; Numbers::SIZE];
    let discount = new.primary_deviation.discount;
    let refusal = ours::thresholder_new(discount, new.auto_threshold as u8, &mut bytes);
    let mut answered = refusal == 0;
    let mut rust = BasicThresholder::of_numbers(new);
    let scores = Scores::new(random);
    for _ in 0..random.below(CALLS + 1) {
        let call = if random.once_in(6) {
            set(random)
        } else {
            scores.update(random)
        };
        if call.refusal(&rust.numbers()) == 0 {
            answered &= call.ours(&mut bytes, &mut []) == 0;
            call.rust(&mut rust);
        }
    }
    (State::of_calls(rust, bytes), answered)
}

/// A count, half of the time one of those around 10 and 20.
fn count(random: &mut Random) -> i32 {
    if random.once_in(2) {
        random.below(32) as i32
    } else {
        statistics::count(random)
    }
}

/// A state of any numbers; from the source `Agreeing` its counts agree.
pub fn any(source: Source, random: &mut Random) -> State {
    let mut s = thresholders::arbitrary(random, list32(), list64());
    s.count = count(random);
    s.primary_deviation.count = count(random);
    if source == Source::Agreeing {
        s.primary_deviation.count = s.count;
    }
    if random.once_in(2) {
        s.absolute_threshold = setting(random);
        s.initial_threshold = setting(random);
    }
    if random.once_in(2) {
        s.factor_adjustment_threshold = 0.9;
    }
    if random.once_in(16) {
        let d = &mut s.primary_deviation;
        (d.weight, d.sum, d.sum_squared) = (1.0, tiny(random), 0.0);
    }
    State::of_numbers(source, s)
}

pub fn question(random: &mut Random) -> Question {
    let any = random.word() as usize;
    Question {
        factor: match random.below(5) {
            0 => random.of(&RARE),
            1 => any32(random, list32()),
            _ => 2.0 + 3.0 * random.fraction() as f32,
        },
        method: random.below(6) as u8,
        shingle: random.of(&[0, 1, 1, 2, 8, 64, any]),
    }
}

/// Three neighbours, the middle one the least score that earns one of the grades above 0.
fn step(random: &mut Random, state: &State, q: &Question) -> [f32; 3] {
    let grade = (1 + random.below(16)) as f32 / 16.0;
    let x = first(|x| state.rust(x, q).1 >= grade);
    [beside(x, -1), x, beside(x, 1)]
}

/// Three scores where a grade is likely to be between 0 and 1.
fn between(random: &mut Random, state: &State, threshold: f32) -> [f32; 3] {
    let absolute = state.numbers.absolute_threshold;
    [0; 3].map(|_| {
        let by = 1.25 * random.fraction() as f32;
        match random.below(3) {
            0 => absolute + by * absolute,
            1 => threshold + by * (threshold - state.primary().0),
            _ => threshold + by * threshold.abs(),
        }
    })
}

/// A score at most three places from one given.
fn near(random: &mut Random, x: f32) -> f32 {
    beside(x, few(random) as i32)
}

/// A subnormal, or any float.
fn some(random: &mut Random) -> f32 {
    match random.below(4) {
        0 => f32::from_bits(random.word() as u32 & 0x807f_ffff),
        1 => f32::from_bits(random.word() as u32),
        _ => any32(random, list32()),
    }
}

/// Scores without a NaN, in their order.
fn sorted<const N: usize>(random: &mut Random, list: [f32; N]) -> [f32; N] {
    let mut list = list.map(|x| {
        let mut kept = x;
        while kept.is_nan() {
            kept = some(random);
        }
        kept
    });
    list.sort_by(f32::total_cmp);
    list
}

/// Scores for a question whose computed threshold is given.
pub fn scores(random: &mut Random, state: &State, q: &Question, threshold: f32) -> [f32; SCORES] {
    let [a, b, c] = if random.once_in(2) {
        step(random, state, q)
    } else {
        between(random, state, threshold)
    };
    let list = [
        f32::NEG_INFINITY,
        f32::INFINITY,
        -0.0,
        0.0,
        a,
        b,
        c,
        near(random, threshold),
        near(random, threshold),
        near(random, state.numbers.initial_threshold),
        near(random, state.numbers.absolute_threshold),
        near(random, state.rust_distance(0.0).0),
        some(random),
        some(random),
    ];
    sorted(random, list)
}

/// Scores for DISTANCE's grade.
pub fn distance_scores(random: &mut Random, state: &State) -> [f32; DISTANCE_SCORES] {
    let (threshold, deviation) = (state.rust_distance(0.0).0, state.primary().1);
    let x = threshold + 1.25 * random.fraction() as f32 * deviation;
    let y = threshold + 1.25 * random.fraction() as f32 * deviation;
    let list = [
        f32::NEG_INFINITY,
        f32::INFINITY,
        -0.0,
        0.0,
        x,
        beside(x, 1),
        y,
        beside(y, 1),
        near(random, threshold),
        near(random, threshold),
        near(random, threshold + deviation),
        some(random),
    ];
    sorted(random, list)
}
