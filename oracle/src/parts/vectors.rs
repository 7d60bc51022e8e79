//! The calls of divector.rs on vectors of every length up to 1024 and of all kinds of floats.

use rcflib::common::divector::DiVector;

use crate::bytes::Bytes;
use crate::random::Random;
use crate::refusals::{BLOCKS, LENGTH};
use crate::tally::Tally;
use crate::{values, vectors};

const CASES: u64 = 400_000;
const LONGEST: u64 = 1024;

/// How the numbers of a vector are chosen.
#[derive(Clone, Copy)]
enum Kind {
    /// Contributions as a forest gives them.
    Plain,
    /// Few values, so that blocks are equal.
    Tied,
    /// Zeros of both signs.
    Zeros,
    /// Of both signs, so that totals may be at or below zero.
    Signed,
    /// Any float, NaN and infinities among them.
    Any,
    /// Plain with one number of any kind.
    Spot,
}

const KINDS: [Kind; 6] = [
    Kind::Plain,
    Kind::Tied,
    Kind::Zeros,
    Kind::Signed,
    Kind::Any,
    Kind::Spot,
];

pub fn list(random: &mut Random, n: usize) -> Vec<f64> {
    let kind = random.of(&KINDS);
    let one = |random: &mut Random| match kind {
        Kind::Plain | Kind::Spot => random.fraction(),
        Kind::Tied => random.below(2) as f64,
        Kind::Zeros => random.of(&[0.0, -0.0]),
        Kind::Signed => 2.0 * random.fraction() - 1.0,
        Kind::Any => values::any64(random, values::list64()),
    };
    let mut list: Vec<f64> = (0..n).map(|_| one(random)).collect();
    if let (Kind::Spot, true) = (kind, n > 0) {
        let at = random.below(n as u64) as usize;
        list[at] = values::any64(random, values::list64());
    }
    list
}

/// A length, most often a short one.
fn length(random: &mut Random) -> usize {
    match random.below(32) {
        0 => random.below(LONGEST + 1) as usize,
        1 => LONGEST as usize,
        _ => random.below(33) as usize,
    }
}

/// A base that divides the length, one that may not, or one at an end of the range.
fn base(random: &mut Random, n: usize) -> usize {
    let divisors: Vec<usize> = (1..=n).filter(|k| n % k == 0).collect();
    match random.below(8) {
        0 => random.of(&[0, n + 1, usize::MAX]),
        1 => random.below(20) as usize,
        _ if n == 0 => 1,
        _ => random.of(&divisors),
    }
}

fn gap(random: &mut Random, n: usize) -> usize {
    match random.below(8) {
        0 => random.of(&[0, 1, usize::MAX, 1 << 63]),
        1 => random.of(&[n, n + 1]),
        _ => random.below(n as u64 + 3) as usize,
    }
}

/// The Rust's block; what it panics or wraps on is refused (8) or starts at block 0.
pub fn block(v: &DiVector, base: usize, gap: usize) -> Result<usize, u8> {
    if v.dimensions() == 0 {
        return Err(BLOCKS);
    }
    let fits = gap.checked_mul(base).is_some();
    let gap = if fits { gap } else { v.dimensions() + 1 };
    v.max_gap_contribution(base, gap).map_err(|_| BLOCKS)
}

/// An answer in eight bytes: the number, or a refusal that leaves them.
fn compare_block(
    tally: &mut Tally,
    answer: (u8, [u8; 8]),
    rust: Result<usize, u8>,
    case: impl FnOnce() -> String,
) {
    let wanted = match rust {
        Ok(k) => (0, (k as u64).to_le_bytes()),
        Err(number) => (number, [0xa5; 8]),
    };
    tally.compare(&answer, &wanted, case);
}

fn ask(tally: &mut Tally, random: &mut Random, v: &DiVector) {
    let (n, mut out) = (v.dimensions(), [0; 8]);
    let answer = vectors::total(&v.high, &v.low, &mut out);
    // A zero total is equal to a zero total, whatever their signs.
    let ours = (answer, f64::get(&out) + 0.0);
    tally.compare(&ours, &(0, v.total() + 0.0), || format!("total of {v:?}"));
    element(tally, random, v);
    let (base, gap) = (base(random, n), gap(random, n));
    let mut out = [0xa5; 8];
    let answer = vectors::max_gap_contribution(&v.high, &v.low, base, gap, &mut out);
    let case = || format!("base {base}, gap {gap} of {v:?}");
    compare_block(tally, (answer, out), block(v, base, gap), case);
    let mut out = [0xa5; 8];
    let answer = vectors::max_contribution(&v.high, &v.low, base, &mut out);
    let case = || format!("base {base} of {v:?}");
    compare_block(tally, (answer, out), block(v, base, n), case);
}

/// One element's sum; beyond the end the Rust panics, and 3 refuses it.
fn element(tally: &mut Tally, random: &mut Random, v: &DiVector) {
    let n = v.dimensions();
    let any = random.below(n as u64 + 1) as usize;
    let index = random.of(&[any, any, any, n, n + 1, usize::MAX]);
    let mut out = [0xa5; 8];
    let answer = vectors::high_low_sum(&v.high, &v.low, index, &mut out);
    let case = || format!("element {index} of {v:?}");
    if index < n {
        let ours = (answer, f64::get(&out));
        tally.compare(&ours, &(0, v.high_low_sum(index)), case);
    } else {
        tally.compare(&(answer, out), &(LENGTH, [0xa5; 8]), case);
    }
}

/// Two vectors of one length.
fn join(tally: &mut Tally, random: &mut Random, v: &DiVector) {
    let n = v.dimensions();
    let other = DiVector {
        high: list(random, n),
        low: list(random, n),
    };
    let x = values::any64(random, values::list64());
    let case = |what: &str| format!("{what} {x:e} of {v:?} and {other:?}");
    let (mut ours, mut rust) = (v.clone(), v.clone());
    let answer = vectors::assign((&mut ours.high, &mut ours.low), &other.high, &other.low);
    rust.assign(&other);
    tally.compare(&(answer, ours), &(0, rust), || case("assign"));
    let (mut ours, mut rust) = (other.clone(), other.clone());
    let answer = vectors::add_to(&v.high, &v.low, (&mut ours.high, &mut ours.low));
    v.add_to(&mut rust);
    tally.compare(&(answer, ours), &(0, rust), || case("add_to"));
    let (mut ours, mut rust) = (other.clone(), other.clone());
    let answer = vectors::add_to_scaled(&v.high, &v.low, (&mut ours.high, &mut ours.low), x);
    v.add_to_scaled(&mut rust, x);
    tally.compare(&(answer, ours), &(0, rust), || case("add_to_scaled"));
}

/// Two vectors with one of the four lists of another length: 3, and nothing written.
fn apart(tally: &mut Tally, random: &mut Random) {
    let n = length(random);
    let mut lists: [Vec<f64>; 4] = std::array::from_fn(|_| list(random, n));
    let k = random.below(4) as usize;
    lists[k].resize(
        random.of(&[n + 1, n + 7, n.checked_sub(1).unwrap_or(2)]),
        1.0,
    );
    let before = lists.clone();
    let [a, b, c, d] = &mut lists;
    let assigned = vectors::assign((a, b), c, d);
    let added = vectors::add_to(a, b, (c, d));
    let scaled = vectors::add_to_scaled(a, b, (c, d), 2.0);
    let ours = ([assigned, added, scaled], lists);
    tally.compare(&ours, &([LENGTH; 3], before), || {
        format!("list {k} not of {n}")
    });
}

fn change(tally: &mut Tally, random: &mut Random, v: &DiVector) {
    let x = values::any64(random, values::list64());
    let (mut ours, mut rust) = (v.clone(), v.clone());
    let answer = vectors::scale(&mut ours.high, &mut ours.low, x);
    rust.scale(x);
    tally.compare(&(answer, ours), &(0, rust), || {
        format!("scale {x:e} of {v:?}")
    });
    let num = random.of(&[0, 1, 2, 3, 50, 1 << 53, usize::MAX]);
    let (mut ours, mut rust) = (v.clone(), v.clone());
    let answer = vectors::divide(&mut ours.high, &mut ours.low, num);
    rust.divide(num);
    tally.compare(&(answer, ours), &(0, rust), || {
        format!("divide by {num} of {v:?}")
    });
    let (mut ours, mut rust) = (v.clone(), v.clone());
    let answer = vectors::normalize(&mut ours.high, &mut ours.low, x);
    rust.normalize(x);
    tally.compare(&(answer, ours), &(0, rust), || {
        format!("normalize {x:e} of {v:?}")
    });
}

/// A call that writes its answer: of a vector, a base or an index, and a gap.
type Question = fn(&DiVector, usize, usize, &mut [u8]) -> u8;

/// Answers of another length than 8, or high and low of two lengths: refused by 3, before 8.
fn lengths(tally: &mut Tally, random: &mut Random) {
    let (n, m) = (length(random), length(random));
    let mut v = DiVector {
        high: list(random, n),
        low: list(random, m),
    };
    let room = match random.of(&[8, 0, 7, 9, 16]) {
        8 if n == m => 1,
        room => room,
    };
    let case = || format!("lengths {n}, {m}, {room}");
    let (base, gap) = (base(random, n), gap(random, n));
    let calls: [Question; 4] = [
        |v, _, _, out| vectors::total(&v.high, &v.low, out),
        |v, b, _, out| vectors::high_low_sum(&v.high, &v.low, b, out),
        |v, b, g, out| vectors::max_gap_contribution(&v.high, &v.low, b, g, out),
        |v, b, _, out| vectors::max_contribution(&v.high, &v.low, b, out),
    ];
    for call in calls {
        let mut out = vec![0xa5; room];
        let answer = call(&v, base, gap, &mut out);
        tally.compare(&(answer, out), &(LENGTH, vec![0xa5; room]), case);
    }
    if n != m {
        let before = v.clone();
        let (high, low) = (&mut v.high, &mut v.low);
        let answers = [
            vectors::scale(high, low, 2.0),
            vectors::divide(high, low, 2),
            vectors::normalize(high, low, 2.0),
        ];
        tally.compare(&(answers, v), &([LENGTH; 3], before), case);
    }
}

pub fn compare(tally: &mut Tally, random: &mut Random) {
    let every = (0..=LONGEST as usize).map(Some);
    for n in every.chain((0..CASES).map(|_| None)) {
        let n = n.unwrap_or_else(|| length(random));
        let v = DiVector {
            high: list(random, n),
            low: list(random, n),
        };
        ask(tally, random, &v);
        change(tally, random, &v);
        join(tally, random, &v);
        apart(tally, random);
        lengths(tally, random);
    }
}
