//! Statistics of all kinds, as inputs.

use rcflib::common::deviation::Deviation;

use crate::random::Random;
use crate::values;

/// Counts at and beyond the ends of what an update takes, and where the chain's rules change.
pub const COUNTS: [i32; 17] = [
    0,
    1,
    2,
    9,
    10,
    11,
    20,
    21,
    16_777_214,
    16_777_215,
    16_777_216,
    16_777_217,
    -1,
    -2,
    i32::MIN,
    i32::MAX - 1,
    i32::MAX,
];

/// Whether an update takes a statistic with this count.
pub fn countable(count: i32) -> bool {
    (0..=16_777_215).contains(&count)
}

/// Any count, most often one that an update takes.
pub fn count(random: &mut Random) -> i32 {
    match random.below(8) {
        0 => random.of(&COUNTS),
        1 => random.word() as i32,
        _ => (random.below(16_777_216) >> random.below(24)) as i32,
    }
}

/// A discount that a new statistic takes.
pub fn discount(random: &mut Random) -> f64 {
    let ends = [0.0, -0.0, 5e-324, 1.0 - f64::EPSILON / 2.0, 0.5];
    match random.below(3) {
        0 => random.of(&ends),
        1 => random.fraction(),
        _ => random.fraction() * 2f64.powi(-(random.below(40) as i32)),
    }
}

/// A state that updates lead to.
fn lived(random: &mut Random) -> Deviation {
    let mut d = Deviation::new(discount(random)).expect("a discount below 1");
    let level = 4.0 * random.fraction();
    for _ in 0..random.below(16) {
        d.update(level + 0.25 * random.fraction());
    }
    d
}

/// A state whose mean of squares is near its mean's square, where the difference loses its digits.
fn flat(random: &mut Random, notable: &[f64]) -> Deviation {
    let mean = values::any64(random, notable);
    let weight = 100.0 * random.fraction();
    let squares = values::step64(mean * mean * weight, values::few(random));
    Deviation::create(
        discount(random),
        weight,
        mean * weight,
        squares,
        count(random),
    )
}

/// A state that updates lead to, one that is nearly flat, or one of any floats.
pub fn any(random: &mut Random, notable: &[f64]) -> Deviation {
    match random.below(4) {
        0 => lived(random),
        1 => flat(random, notable),
        _ => {
            let d = values::any64(random, notable);
            let w = values::any64(random, notable);
            let s = values::any64(random, notable);
            let q = values::any64(random, notable);
            Deviation::create(d, w, s, q, count(random))
        }
    }
}
