//! How a call is timed: the best of many rounds, ours and the Rust's taking turns.

use std::hint::black_box;
use std::ops::AddAssign;
use std::time::Instant;

const ROUNDS: usize = 500;

/// The time of one call in ns, from a pass over all inputs.
pub fn pass(calls: usize, work: impl FnOnce()) -> f64 {
    let start = Instant::now();
    work();
    start.elapsed().as_nanos() as f64 / calls as f64
}

/// Calls that do not wait for each other.
pub fn apart<A: Copy, B>(inputs: &[A], f: impl Fn(A) -> B) -> f64 {
    pass(inputs.len(), || {
        for &x in inputs {
            black_box(f(black_box(x)));
        }
    })
}

/// Calls whose answers are added up: the additions wait for each other, the calls do not.
pub fn summed<A: Copy, B: Copy + AddAssign>(inputs: &[A], zero: B, f: impl Fn(A) -> B) -> f64 {
    pass(inputs.len(), || {
        let mut sum = zero;
        for &x in inputs {
            sum += f(black_box(x));
        }
        black_box(sum);
    })
}

/// Calls that each wait for the one before: `join` makes the next argument of an input and the
/// last answer.
pub fn chained<A: Copy, B: Copy>(
    inputs: &[A],
    first: B,
    join: impl Fn(A, B) -> A,
    f: impl Fn(A) -> B,
) -> f64 {
    pass(inputs.len(), || {
        let mut last = first;
        for &x in inputs {
            last = f(join(black_box(x), last));
        }
        black_box(last);
    })
}

pub fn heading() {
    println!("best of {ROUNDS} rounds, ns a call");
    println!("{:<34} {:>9} {:>9} {:>9}", "", "ours", "rust", "ratio");
}

/// The best time of each side, the sides taking turns.
pub fn best<const N: usize>(sides: [&dyn Fn() -> f64; N]) -> [f64; N] {
    let mut best = [f64::INFINITY; N];
    for _ in 0..ROUNDS {
        for (least, side) in best.iter_mut().zip(sides) {
            *least = least.min(side());
        }
    }
    best
}

/// Prints the best times of the two sides.
pub fn against(what: &str, ours: impl Fn() -> f64, rust: impl Fn() -> f64) {
    let [a, b] = best([&ours, &rust]);
    println!("{what:<34} {a:>9.2} {b:>9.2} {:>9.2}", a / b);
}

pub fn checked_heading() {
    println!(
        "{:<34} {:>9} {:>9} {:>9} {:>9} {:>9} {:>9}",
        "", "ours", "rust", "all", "fold", ": rust", ": checked"
    );
}

/// Prints the best times of ours, of the Rust, and of the Rust behind entry checks in two forms;
/// then ours over the Rust's, and over the better of the checked ones.
pub fn against_checked(
    what: &str,
    ours: impl Fn() -> f64,
    rust: impl Fn() -> f64,
    [all, fold]: [&dyn Fn() -> f64; 2],
) {
    let [a, b, c, d] = best([&ours, &rust, all, fold]);
    println!(
        "{what:<34} {a:>9.1} {b:>9.1} {c:>9.1} {d:>9.1} {:>9.2} {:>9.2}",
        a / b,
        a / c.min(d)
    );
}

pub fn pooled_heading() {
    println!("{:<34} {:>9} {:>9} {:>9}", "", "alone", "in a pool", "more");
}

/// Prints the best times of a call on a state alone and of the same on a drawer in a pool, and how
/// much more the second is.
pub fn pooled(what: &str, alone: impl Fn() -> f64, pooled: impl Fn() -> f64) {
    let [a, b] = best([&alone, &pooled]);
    println!("{what:<34} {a:>9.1} {b:>9.1} {:>9.1}", b - a);
}
