//! Floats that are likely to be got wrong, and mixtures of them with random ones.

use std::sync::LazyLock;

use crate::random::Random;

/// The float whose pattern lies `by` further on, over the ends as patterns go.
#[inline]
pub fn step64(x: f64, by: i64) -> f64 {
    f64::from_bits(x.to_bits().wrapping_add(by as u64))
}

#[inline]
pub fn step32(x: f32, by: i32) -> f32 {
    f32::from_bits(x.to_bits().wrapping_add(by as u32))
}

/// A whole number of steps from -3 to 3.
#[inline]
pub fn few(random: &mut Random) -> i64 {
    random.below(7) as i64 - 3
}

/// The patterns of NaNs: quiet and signalling, of both signs, the least and the largest.
const NANS64: [u64; 5] = [
    0x7ff8_0000_0000_0000,
    0xfff8_0000_0000_0000,
    0x7ff0_0000_0000_0001,
    0xfff4_0000_0000_0000,
    u64::MAX,
];

const NANS32: [u32; 5] = [0x7fc0_0000, 0xffc0_0000, 0x7f80_0001, 0xffa0_0000, u32::MAX];

/// Numbers that the chain has as constants or that a reader would try.
const PLAIN: [f64; 20] = [
    0.0, 1.0, 0.5, 0.25, 0.1, 0.2, 0.3, 0.8, 0.9, 1.4, 1.5, 2.0, 3.0, 5.0, 10.0, 16.0, 20.0, 1e-3,
    16777215.0, 16777216.0,
];

/// The patterns of all powers of two and of the infinity, from the least one on.
fn powers64() -> Vec<u64> {
    let small = (0..52).map(|k| 1u64 << k);
    small.chain((1..=2047).map(|field| field << 52)).collect()
}

fn powers32() -> Vec<u32> {
    let small = (0..23).map(|k| 1u32 << k);
    small.chain((1..=255).map(|field| field << 23)).collect()
}

/// Zeros, infinities, NaNs, plain numbers, and all powers of two with the two floats on each side.
pub fn f64s() -> Vec<f64> {
    let mut list: Vec<f64> = NANS64.iter().map(|&b| f64::from_bits(b)).collect();
    let plain = PLAIN.iter().map(|x| x.to_bits());
    for bits in powers64().into_iter().chain(plain) {
        for by in -2..=2 {
            let x = step64(f64::from_bits(bits), by);
            list.extend([x, -x]);
        }
    }
    list
}

pub fn f32s() -> Vec<f32> {
    let mut list: Vec<f32> = NANS32.iter().map(|&b| f32::from_bits(b)).collect();
    let plain = PLAIN.iter().map(|&x| (x as f32).to_bits());
    for bits in powers32().into_iter().chain(plain) {
        for by in -2..=2 {
            let x = step32(f32::from_bits(bits), by);
            list.extend([x, -x]);
        }
    }
    list
}

/// A short list for choosing from at random.
pub fn notable64() -> Vec<f64> {
    let ends = [
        f64::MAX,
        f64::MIN_POSITIVE,
        f64::INFINITY,
        f64::NAN,
        5e-324,
        f64::EPSILON,
        1.0 - f64::EPSILON / 2.0,
        1e300,
        1e-300,
        1e150,
        1e-160,
    ];
    let all = PLAIN.iter().chain(&ends);
    all.flat_map(|&x| [x, -x]).collect()
}

pub fn notable32() -> Vec<f32> {
    let ends = [f32::MAX, f32::MIN_POSITIVE, f32::INFINITY, f32::NAN, 1e-45];
    let plain = PLAIN.iter().map(|&x| x as f32);
    plain.chain(ends).flat_map(|x| [x, -x]).collect()
}

/// Any float: a random pattern, a notable one, a middling one or a small whole number.
pub fn any64(random: &mut Random, notable: &[f64]) -> f64 {
    match random.below(4) {
        0 => f64::from_bits(random.word()),
        1 => random.of(notable),
        2 => 8.0 * random.fraction() - 4.0,
        _ => random.below(64) as f64 - 32.0,
    }
}

pub fn any32(random: &mut Random, notable: &[f32]) -> f32 {
    match random.below(4) {
        0 => f32::from_bits(random.word() as u32),
        1 => random.of(notable),
        2 => (8.0 * random.fraction() - 4.0) as f32,
        _ => random.below(64) as f32 - 32.0,
    }
}

/// The short lists, made once.
pub fn list32() -> &'static [f32] {
    static LIST: LazyLock<Vec<f32>> = LazyLock::new(notable32);
    &LIST
}

pub fn list64() -> &'static [f64] {
    static LIST: LazyLock<Vec<f64>> = LazyLock::new(notable64);
    &LIST
}
