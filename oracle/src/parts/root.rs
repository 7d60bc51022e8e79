//! `f64::sqrt`.

use crate::ours;
use crate::random::Random;
use crate::tally::Tally;
use crate::values::{self, few, step64};

const CASES: u64 = 120_000_000;

/// x * 4^k for a random k. Where this leaves the range, the result is a zero or an infinity.
fn scaled(random: &mut Random, x: f64) -> f64 {
    x * 2f64.powi(2 * (random.below(1000) as i32 - 500))
}

/// An odd y with y * y = d modulo 2^64, for a d that is 1 modulo 8: Newton's method for 1 / √d.
fn odd_root(d: u128) -> u128 {
    let mut z = 1u128;
    for _ in 0..6 {
        let error = d.wrapping_mul(z).wrapping_mul(z);
        z = z.wrapping_mul(3u128.wrapping_sub(error)) >> 1;
    }
    d.wrapping_mul(z)
}

/// A float q * 2^e whose root lies next to the middle between two floats: 54 digits y, the last of
/// them 1, have y * y = q * 2^54 + d or q * 2^55 + d with a small d.
fn beside_middle(random: &mut Random) -> f64 {
    loop {
        let wide = 1 << (1 + random.below(40));
        let d = 8 * (random.below(2 * wide) as i128 - wide as i128) + 1;
        let y = odd_root(d as u128);
        let y = if random.once_in(2) {
            y
        } else {
            y.wrapping_neg()
        };
        let y = y & ((1 << 53) - 1) | 1 << 53;
        let square = (y * y).wrapping_sub(d as u128);
        let places = square.ilog2() - 52;
        if square % (1 << places) == 0 {
            let digits = (square >> places) as u64 & ((1 << 52) - 1);
            // The exponent e = field - 1075 is odd or even as `places` is.
            let field = 2 * random.below(1023) + 1 + (places as u64 & 1);
            return f64::from_bits(field << 52 | digits);
        }
    }
}

/// One of eight kinds: sizes, any pattern, subnormals, squares of whole numbers, other squares,
/// numbers with a root beside a middle, numbers from 1 to 4, powers of two; squares and powers of
/// two with their neighbours.
#[inline]
fn case(random: &mut Random, kind: u64) -> f64 {
    match kind {
        0 => f64::from_bits(random.word() >> 1),
        1 => f64::from_bits(random.word()),
        2 => f64::from_bits(random.word() >> (12 + random.below(52))),
        3 => {
            let r = (random.word() >> (37 + random.below(24))) as f64;
            let x = scaled(random, r * r);
            step64(x, few(random))
        }
        4 => {
            let r = f64::from_bits(random.word() >> 1);
            step64(r * r, few(random))
        }
        5 => beside_middle(random),
        6 => 1.0 + 3.0 * random.fraction(),
        _ => step64(f64::from_bits(random.below(2047) << 52), few(random)),
    }
}

#[inline]
fn check(tally: &mut Tally, x: f64) {
    tally.compare(&ours::sqrt(x), &x.sqrt(), || {
        format!("sqrt {:016x}", x.to_bits())
    });
}

pub fn compare(tally: &mut Tally, random: &mut Random) {
    for x in values::f64s() {
        check(tally, x);
    }
    for r in 0..100_000 {
        let square = r as f64 * r as f64;
        for by in -2..=2 {
            check(tally, step64(square, by));
        }
    }
    for i in 0..CASES {
        check(tally, case(random, i % 8));
    }
}
