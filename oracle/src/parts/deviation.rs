//! deviation.rs: each call on states and scores of all kinds, runs of updates, and the refusals.

use rcflib::common::deviation::Deviation;

use crate::bytes::Bytes;
use crate::ours;
use crate::random::Random;
use crate::refusals::{refused, COUNT, DISCOUNT, LENGTH};
use crate::same::Same;
use crate::statistics::{self, countable, discount, COUNTS};
use crate::tally::Tally;
use crate::values;

const CASES: u64 = 10_000_000;
const RUNS: u64 = 100_000;

/// The length of a state.
const STATISTIC: usize = Deviation::SIZE;

/// A yes/no and a number, and what stands there before a call.
const MEASURED: usize = 9;
const BEFORE: [u8; MEASURED] = [0xa5; MEASURED];

fn packed(d: &Deviation) -> [u8; STATISTIC] {
    let mut out = [0; STATISTIC];
    d.put(&mut out);
    out
}

fn update(tally: &mut Tally, d: &Deviation, score: f64) {
    let before = packed(d);
    let mut after = before;
    let refusal = ours::deviation_update(&mut after, score);
    let case = || format!("update by {} of {}", score.show(), d.show());
    if countable(d.count) {
        let mut rust = d.clone();
        rust.update(score);
        tally.compare(&(refusal, Deviation::get(&after)), &(0, rust), case);
    } else {
        tally.compare(&(refusal, after), &(COUNT, before), case);
    }
}

fn reset(tally: &mut Tally, d: &Deviation) {
    let mut after = packed(d);
    let refusal = ours::deviation_reset(&mut after);
    let mut rust = d.clone();
    rust.reset();
    let ours = (refusal, Deviation::get(&after));
    tally.compare(&ours, &(0, rust), || format!("reset of {}", d.show()));
}

/// What ours is to answer where the Rust answers `rust`: a yes and the number. Of an empty statistic the Rust
/// has to answer 0; ours is a no, and the bytes behind it stay.
fn measured(tally: &mut Tally, d: &Deviation, rust: f64) -> (u8, [u8; MEASURED]) {
    let mut out = BEFORE;
    let is_number = !(d.weight() <= 0.0);
    out[0] = is_number as u8;
    if is_number {
        rust.plain().put(&mut out[1..]);
    } else {
        tally.compare(&rust, &0.0, || format!("the Rust's number of {}", d.show()));
    }
    (0, out)
}

/// The calls that answer a number about a state.
fn ask(tally: &mut Tally, d: &Deviation) {
    let state = packed(d);
    let mut out = BEFORE;
    let refusal = ours::deviation_mean(&state, &mut out);
    let rust = measured(tally, d, d.mean());
    tally.compare(&(refusal, out), &rust, || format!("mean of {}", d.show()));

    let mut out = BEFORE;
    let refusal = ours::deviation_deviation(&state, &mut out);
    let rust = measured(tally, d, d.deviation());
    tally.compare(&(refusal, out), &rust, || {
        format!("deviation of {}", d.show())
    });

    let mut out = [0xa5];
    let refusal = ours::deviation_is_empty(&state, &mut out);
    let rust = (0, d.is_empty() as u8);
    tally.compare(&(refusal, out[0]), &rust, || {
        format!("is_empty of {}", d.show())
    });
}

fn new(tally: &mut Tally, discount: f64) {
    let before = [0xa5; STATISTIC];
    let mut out = before;
    let refusal = ours::deviation_new(discount, &mut out);
    let case = || format!("new of discount {}", discount.show());
    match Deviation::new(discount) {
        Ok(rust) => tally.compare(&(refusal, Deviation::get(&out)), &(0, rust), case),
        Err(_) => tally.compare(&(refusal, out), &(DISCOUNT, before), case),
    }
}

/// Both sides updated in step from the same beginning, each from its own state.
fn run(tally: &mut Tally, random: &mut Random, notable: &[f64]) {
    let mut rust = Deviation::new(discount(random)).expect("a discount below 1");
    let mut ours = packed(&rust);
    let wild = random.once_in(4);
    for step in 0..random.below(100) {
        let score = if wild {
            values::any64(random, notable)
        } else {
            3.0 * random.fraction()
        };
        let refusal = ours::deviation_update(&mut ours, score);
        rust.update(score);
        let answer = (refusal, Deviation::get(&ours));
        tally.compare(&answer, &(0, rust.clone()), || {
            format!("step {step} of a run")
        });
    }
}

fn lengths(tally: &mut Tally) {
    let state = packed(&Deviation::create(0.5, 2.0, 3.0, 5.0, 2));
    for len in (0..=80).filter(|&len| len != STATISTIC) {
        refused(tally, len, LENGTH, "new", |b| ours::deviation_new(0.5, b));
        refused(tally, len, DISCOUNT, "new of 1", |b| {
            ours::deviation_new(1.0, b)
        });
        refused(tally, len, DISCOUNT, "new of NaN", |b| {
            ours::deviation_new(f64::NAN, b)
        });
        refused(tally, len, LENGTH, "update", |b| {
            ours::deviation_update(b, 1.0)
        });
        refused(tally, len, LENGTH, "reset", ours::deviation_reset);
        refused(tally, MEASURED, LENGTH, "mean", |b| {
            ours::deviation_mean(&vec![0; len], b)
        });
        refused(tally, MEASURED, LENGTH, "deviation", |b| {
            ours::deviation_deviation(&vec![0; len], b)
        });
        refused(tally, 1, LENGTH, "is_empty", |b| {
            ours::deviation_is_empty(&vec![0; len], b)
        });
    }
    for len in (0..=40).filter(|&len| len != MEASURED) {
        refused(tally, len, LENGTH, "mean", |b| {
            ours::deviation_mean(&state, b)
        });
        refused(tally, len, LENGTH, "deviation", |b| {
            ours::deviation_deviation(&state, b)
        });
    }
    for len in (0..=40).filter(|&len| len != 1) {
        refused(tally, len, LENGTH, "is_empty", |b| {
            ours::deviation_is_empty(&state, b)
        });
    }
}

pub fn compare(tally: &mut Tally, random: &mut Random) {
    let notable = values::notable64();
    lengths(tally);
    values::f64s().into_iter().for_each(|x| new(tally, x));
    for c in COUNTS {
        for &score in &notable {
            update(tally, &Deviation::create(0.25, 2.0, 3.0, 5.0, c), score);
        }
    }
    for _ in 0..RUNS {
        run(tally, random, &notable);
    }
    for _ in 0..CASES {
        let d = statistics::any(random, &notable);
        update(tally, &d, values::any64(random, &notable));
        reset(tally, &d);
        ask(tally, &d);
        new(tally, values::any64(random, &notable));
    }
}
