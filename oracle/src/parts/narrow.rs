//! `as f32` of an `f64`.

use crate::ours;
use crate::random::Random;
use crate::tally::Tally;
use crate::values::{self, few, step64};

const CASES: u64 = 120_000_000;

/// The middle between an `f32` of finite size and the next larger one, beyond the largest also.
fn middle(random: &mut Random) -> f64 {
    let bits = random.below(0x7f80_0000) as u32;
    let sign = random.word() & 1 << 63;
    let from = f32::from_bits(bits) as f64;
    let to = if bits == 0x7f7f_ffff {
        2.0 * 2f64.powi(127)
    } else {
        f32::from_bits(bits + 1) as f64
    };
    f64::from_bits(((from + to) / 2.0).to_bits() | sign)
}

/// Random digits under an exponent field from `low` on, `n` of them.
fn with_field(random: &mut Random, low: u64, n: u64) -> f64 {
    let field = low + random.below(n);
    f64::from_bits(random.word() & 0x800f_ffff_ffff_ffff | field << 52)
}

/// One of six kinds: any pattern, the `f32`s' own range, where they are subnormal, where they end,
/// the middle between two or beside it, and an `f32` or beside it.
#[inline]
fn case(random: &mut Random, kind: u64) -> f64 {
    match kind {
        0 => f64::from_bits(random.word()),
        1 => with_field(random, 896, 256),
        2 => with_field(random, 868, 32),
        3 => with_field(random, 1148, 5),
        4 => step64(middle(random), few(random)),
        _ => step64(f32::from_bits(random.word() as u32) as f64, few(random)),
    }
}

#[inline]
fn check(tally: &mut Tally, x: f64) {
    tally.compare(&ours::narrow(x), &(x as f32), || {
        format!("narrow {:016x}", x.to_bits())
    });
}

pub fn compare(tally: &mut Tally, random: &mut Random) {
    for x in values::f64s() {
        check(tally, x);
    }
    let last = f32::MAX as f64 + 2f64.powi(102 + 1);
    for by in -1000..=1000 {
        check(tally, step64(last, by));
        check(tally, step64(2f64.powi(-150), by));
        check(tally, step64(2f64.powi(-149), by));
        check(tally, step64(2f64.powi(-126), by));
    }
    for i in 0..CASES {
        check(tally, case(random, i % 6));
    }
}
