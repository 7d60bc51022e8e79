//! Floats from and to patterns, `as f64` of an `f32`, and floats from whole numbers.

use crate::ours;
use crate::random::Random;
use crate::tally::Tally;
use crate::values;

const CASES: u64 = 20_000_000;

/// A prime step over all patterns of an `f32`.
const STEP: usize = 211;

fn patterns32(tally: &mut Tally, bits: u32) {
    let x = f32::from_bits(bits);
    let case = |what: &str| format!("{what} {bits:08x}");
    tally.compare(&ours::f32_from_bits(bits), &x, || case("f32_from_bits"));
    // A NaN's pattern is left open, so patterns are compared as the floats they stand for.
    let back = f32::from_bits(ours::f32_to_bits(x));
    tally.compare(&back, &x, || case("f32_to_bits"));
    tally.compare(&ours::widen(x), &(x as f64), || case("widen"));
}

fn patterns64(tally: &mut Tally, bits: u64) {
    let x = f64::from_bits(bits);
    let case = |what: &str| format!("{what} {bits:016x}");
    tally.compare(&ours::f64_from_bits(bits), &x, || case("f64_from_bits"));
    let back = f64::from_bits(ours::f64_to_bits(x));
    tally.compare(&back, &x, || case("f64_to_bits"));
}

/// All conversions from whole numbers, of the low digits of n.
fn whole(tally: &mut Tally, n: u64) {
    let case = |what: &str| format!("{what} of the low digits of {n:016x}");
    let (i, u, z) = (n as i32, n as u32, n as usize);
    tally.compare(&ours::i32_to_f32(i), &(i as f32), || case("i32_to_f32"));
    tally.compare(&ours::u32_to_f32(u), &(u as f32), || case("u32_to_f32"));
    tally.compare(&ours::i32_to_f64(i), &(i as f64), || case("i32_to_f64"));
    tally.compare(&ours::usize_to_f64(z), &(z as f64), || case("usize_to_f64"));
}

/// A number of a random length: any digits, or a middle between two floats or beside it.
fn number(random: &mut Random) -> u64 {
    let n = random.word() >> random.below(64);
    let places = random.below(40);
    let cut = n >> places << places;
    match random.below(3) {
        0 => n,
        1 => cut.wrapping_add(random.below(3)).wrapping_sub(1),
        _ => cut.wrapping_add(1 << places >> 1).wrapping_neg(),
    }
}

pub fn compare(tally: &mut Tally, random: &mut Random) {
    values::f32s()
        .iter()
        .for_each(|x| patterns32(tally, x.to_bits()));
    values::f64s()
        .iter()
        .for_each(|x| patterns64(tally, x.to_bits()));
    (0..=u32::MAX)
        .step_by(STEP)
        .for_each(|bits| patterns32(tally, bits));
    for k in 0..64 {
        for by in -3i64..=3 {
            whole(tally, (1u64 << k).wrapping_add(by as u64));
            whole(tally, (1u64 << k).wrapping_add(by as u64).wrapping_neg());
        }
    }
    for _ in 0..CASES {
        patterns64(tally, random.word());
        whole(tally, number(random));
    }
}
