//! Root, floor and narrowing against the Rust's own operations, which the compiler puts in place
//! or takes from the C library. "called" has the Rust's operation behind a call, as ours is.

use super::timing::{against, apart, chained, summed};
use crate::ours;
use crate::random::Random;

const INPUTS: usize = 16384;

#[inline(never)]
fn called_sqrt(x: f64) -> f64 {
    x.sqrt()
}

#[inline(never)]
fn called_floor(x: f32) -> f32 {
    x.floor()
}

#[inline(never)]
fn called_narrow(x: f64) -> f32 {
    x as f32
}

fn roots(random: &mut Random) {
    let list: Vec<f64> = (0..INPUTS).map(|_| 1e6 * random.fraction()).collect();
    let join = |x: f64, last: f64| x + last;
    let ours = || apart(&list, |x| ours::sqrt(x));
    against("root", ours, || apart(&list, f64::sqrt));
    against("root, called", ours, || apart(&list, called_sqrt));
    let ours = || summed(&list, 0.0, |x| ours::sqrt(x));
    against("root, summed, called", ours, || {
        summed(&list, 0.0, called_sqrt)
    });
    let ours = || chained(&list, 0.0, join, |x| ours::sqrt(x));
    against("root, chained", ours, || {
        chained(&list, 0.0, join, f64::sqrt)
    });
    against("root, chained, called", ours, || {
        chained(&list, 0.0, join, called_sqrt)
    });
}

/// Just below a power of four, where a root is the last of the candidates.
fn roots_below_powers(random: &mut Random) {
    let below = |k: u64| f64::from_bits((2.0f64).powi(2 * k as i32 - 64).to_bits() - 1);
    let list: Vec<f64> = (0..INPUTS).map(|_| below(random.below(65))).collect();
    let ours = || apart(&list, |x| ours::sqrt(x));
    against("root below a power of four, called", ours, || {
        apart(&list, called_sqrt)
    });
}

fn floors(random: &mut Random) {
    let number = || (40.0 * random.fraction() - 20.0) as f32;
    let list: Vec<f32> = std::iter::repeat_with(number).take(INPUTS).collect();
    let join = |x: f32, last: f32| x - last;
    let ours = || apart(&list, |x| ours::floor(x));
    against("floor", ours, || apart(&list, f32::floor));
    against("floor, called", ours, || apart(&list, called_floor));
    let ours = || summed(&list, 0.0, |x| ours::floor(x));
    against("floor, summed, called", ours, || {
        summed(&list, 0.0, called_floor)
    });
    let ours = || chained(&list, 0.0, join, |x| ours::floor(x));
    against("floor, chained", ours, || {
        chained(&list, 0.0, join, f32::floor)
    });
    against("floor, chained, called", ours, || {
        chained(&list, 0.0, join, called_floor)
    });
}

fn narrowings(random: &mut Random) {
    let list: Vec<f64> = (0..INPUTS)
        .map(|_| 40.0 * random.fraction() - 20.0)
        .collect();
    let join = |x: f64, last: f32| x - last as f64;
    let plain = |x: f64| x as f32;
    let ours = || apart(&list, |x| ours::narrow(x));
    against("narrow", ours, || apart(&list, plain));
    against("narrow, called", ours, || apart(&list, called_narrow));
    let ours = || summed(&list, 0.0, |x| ours::narrow(x));
    against("narrow, summed, called", ours, || {
        summed(&list, 0.0, called_narrow)
    });
    let ours = || chained(&list, 0.0, join, |x| ours::narrow(x));
    against("narrow, chained", ours, || chained(&list, 0.0, join, plain));
    against("narrow, chained, called", ours, || {
        chained(&list, 0.0, join, called_narrow)
    });
}

pub fn run(random: &mut Random) {
    roots(random);
    roots_below_powers(random);
    floors(random);
    narrowings(random);
}
