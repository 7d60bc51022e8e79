//! The calls on a reading's buffers: what each is handed, ours, the Rust's, and how it is spoilt.

pub mod adjusting;
pub mod asked;
pub mod corrector;
pub mod expected;
pub mod missing;
pub mod sample;

use crate::parts::vectors::list;
use crate::random::Random;
use crate::same::Same;

/// One call with all that it is handed.
pub trait Call: Clone {
    /// The numbers that it may be refused with, in their order.
    const NUMBERS: &'static [u8];

    /// What it may write.
    type Left: Same;

    /// One that is accepted.
    fn sound(random: &mut Random) -> Self;

    /// Spoils one thing so that the number applies. Of two damages the one with the larger number
    /// comes first: what the other needs to find in its place is then still there.
    fn spoil(&mut self, random: &mut Random, number: u8);

    /// Document 01's number, read off what is handed over.
    fn refusal(&self) -> u8;

    /// Our call: its answer.
    fn ours(&mut self) -> u8;

    /// What the Rust leaves, where the call is accepted.
    fn rust(&self) -> Self::Left;

    /// What stands there now.
    fn left(&self) -> Self::Left;

    fn show(&self) -> String;
}

/// A shingle size and a base dimension, small ones more often.
pub fn sizes(random: &mut Random) -> (usize, usize) {
    let shingle = match random.below(4) {
        0 => 1 + random.below(64),
        _ => 1 + random.below(8),
    };
    (shingle as usize, 1 + random.below(16) as usize)
}

pub fn sizes_ok(shingle: usize, base: usize) -> bool {
    (1..=64).contains(&shingle) && (1..=16).contains(&base)
}

/// A size that is out of its range.
pub fn no_size(random: &mut Random, most: usize) -> usize {
    random.of(&[0, most + 1, most + 1, 1 << 32, usize::MAX])
}

/// Finite floats of all kinds.
pub fn doubles(random: &mut Random, n: usize) -> Vec<f64> {
    let finite = |x: f64| if x.is_finite() { x } else { 0.5 };
    list(random, n).into_iter().map(finite).collect()
}

pub fn singles(random: &mut Random, n: usize) -> Vec<f32> {
    let finite = |x: f64| {
        if (x as f32).is_finite() {
            x as f32
        } else {
            0.5
        }
    };
    list(random, n).into_iter().map(finite).collect()
}

/// Values of their own for a buffer that may be written, so that a change shows.
pub fn room(n: usize) -> Vec<f32> {
    (0..n).map(|k| -7.5 - k as f32).collect()
}

/// A float that is not finite at one place of a list, which has one.
pub fn unbound<T: Copy>(random: &mut Random, list: &mut [T], from: impl Fn(f32) -> T) {
    let at = random.below(list.len() as u64) as usize;
    list[at] = from(random.of(&[f32::NAN, -f32::NAN, f32::INFINITY, f32::NEG_INFINITY]));
}
