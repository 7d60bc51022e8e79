//! detect_and_modify: sequences of readings through every exit under both strategies, each side with
//! its own state, the four setters, and readings that one or two damages have refused.

use std::collections::BTreeSet;

use rcflib::common::descriptor::Descriptor;
use rcflib::trcf::predictorcorrector::PredictorCorrector;

use crate::chain::{self, said, state_of, verdict_bytes, Handed};
use crate::fresh;
use crate::random::Random;
use crate::readings::damage::{spoil, NUMBERS};
use crate::readings::exits::{exit, Exits, SKIPPED};
use crate::readings::making::Maker;
use crate::readings::{states, table, verdict, Reading};
use crate::refusals::{COUNT, DISCOUNT, HORIZON, LENGTH, RANGE};
use crate::tally::Tally;
use crate::values;

const SEQUENCES: u64 = 30_000;
const READINGS: u64 = 50;

/// How often each exit has to come up for each strategy, with auto adjust and without.
const LEAST: u64 = 2_000;

/// What came up: exits, single refusals and pairs of them, sizes and numbers of neighbours.
#[derive(Default)]
struct Seen {
    exits: Exits,
    accepted: u64,
    single: [u64; 5],
    pairs: [[u64; 5]; 5],
    used_up: u64,
    shingles: BTreeSet<usize>,
    bases: BTreeSet<usize>,
    crowds: BTreeSet<usize>,
}

/// Judges a reading on both sides and compares verdict, state and every buffer. Hands back the
/// state's bytes and the Rust's result with its exit.
pub fn judge(
    tally: &mut Tally,
    before: &Handed,
    rust: &mut PredictorCorrector,
    reading: &Reading,
) -> (Vec<u8>, Descriptor, usize) {
    let mut after = before.clone();
    let number = after.judge();
    let (result, calls) = reading.judge(rust);
    let way = exit(&result, &calls);
    let case = |what: &str| format!("{what}: {reading:?}");
    let (ours, index) = said(&after.verdict);
    tally.compare(&(number, ours), &(0, verdict(&result)), || case("verdict"));
    let raised = result.expected_rcf_point.is_some();
    let rust_index = if raised { result.relative_index } else { 0 };
    tally.compare(&index, &rust_index, || case("relative index"));
    let bytes = verdict_bytes(verdict(&result), rust_index);
    tally.compare(&after.verdict, &bytes, || case("verdict's bytes"));
    compare_states(tally, &before.state, &after.state, rust, (way, reading));
    let expected = result.expected_rcf_point.as_ref();
    let expected = expected.unwrap_or(&before.expected);
    tally.compare(&after.expected, expected, || case("expected point"));
    let attribution = result.attribution.as_ref();
    let high = attribution.map_or(&before.out_high, |a| &a.high);
    tally.compare(&after.out_high, high, || case("attribution, high"));
    let low = attribution.map_or(&before.out_low, |a| &a.low);
    tally.compare(&after.out_low, low, || case("attribution, low"));
    (after.state, result, way)
}

/// The state field by field, then its bytes: a skipped reading leaves all of them, another one those
/// of entries that do not exist.
fn compare_states(
    tally: &mut Tally,
    before: &[u8],
    after: &[u8],
    rust: &PredictorCorrector,
    (way, reading): (usize, &Reading),
) {
    let state = rust.state();
    let case = || format!("state: {reading:?}");
    tally.compare(&state_of(after), &state, case);
    let mut bytes = before.to_vec();
    if way != SKIPPED {
        states::put(&state, reading.base, &mut bytes);
    }
    tally.compare(after, &bytes[..], case);
}

/// One of the setters on both sides, with a float that may be refused.
fn set(tally: &mut Tally, random: &mut Random, state: &mut [u8], rust: &mut PredictorCorrector) {
    let x = match random.below(8) {
        0 => values::any32(random, values::list32()),
        _ => random.fraction() as f32,
    };
    let before = state.to_vec();
    let (number, expected) = match random.below(4) {
        0 => {
            rust.set_z_factor(2.0 + 2.0 * x);
            (chain::set_z_factor(state, 2.0 + 2.0 * x), 0)
        }
        1 => {
            rust.set_lower_threshold(x);
            (chain::set_lower_threshold(state, x), 0)
        }
        2 => {
            rust.set_initial_threshold(1.0 + x);
            (chain::set_initial_threshold(state, 1.0 + x), 0)
        }
        _ if (0.0..=1.0).contains(&x) => {
            rust.set_horizon(x);
            (chain::set_horizon(state, x), 0)
        }
        _ => {
            let number = chain::set_horizon(state, x);
            tally.compare(&state.to_vec(), &before, || format!("horizon {x:e}"));
            (number, HORIZON)
        }
    };
    let ours = (number, state_of(state));
    tally.compare(&ours, &(expected, rust.state()), || "a setter".to_string());
}

fn new(tally: &mut Tally, discount: f64, adjust: u8, base: usize, len: usize) -> Vec<u8> {
    let before = vec![0xa5; len];
    let mut out = before.clone();
    let number = chain::new(discount, adjust, base, &mut out);
    let case = || format!("new {discount:e} {adjust} {base} into {len}");
    let refusal = if !(0.0..1.0).contains(&discount) {
        DISCOUNT
    } else if adjust > 1 || !(1..=16).contains(&base) {
        RANGE
    } else if len != chain::STATE {
        LENGTH
    } else {
        0
    };
    if refusal != 0 {
        tally.compare(&(number, out.clone()), &(refusal, before), case);
    } else {
        let rust = fresh::chain(discount, adjust == 1, base);
        let mut bytes = vec![0; len];
        states::put(&rust.state(), base, &mut bytes);
        tally.compare(&(number, state_of(&out)), &(0, rust.state()), case);
        tally.compare(&out, &bytes, case);
    }
    out
}

/// A refused judgment: its number, and nothing written.
pub fn refused(tally: &mut Tally, mut h: Handed, number: u8) {
    let before = h.clone();
    let answer = h.judge();
    let case = || format!("refusal {number} of {before:?}");
    tally.compare(&answer, &number, case);
    tally.compare(&h.state, &before.state, case);
    tally.compare(&h.expected, &before.expected, case);
    tally.compare(&h.out_high, &before.out_high, case);
    tally.compare(&h.out_low, &before.out_low, case);
    tally.compare(&h.verdict, &before.verdict, case);
}

/// One or two things spoiled: the smaller number is given.
fn damaged(tally: &mut Tally, random: &mut Random, mut h: Handed, seen: &mut Seen) {
    let a = random.below(5) as usize;
    let b = random.below(6) as usize;
    let (least, most) = (a.min(b), a.max(b));
    if most < 5 {
        spoil(random, &mut h, NUMBERS[most]);
    }
    spoil(random, &mut h, NUMBERS[least]);
    // Two of a kind may undo each other.
    if least == most && table::refusal(&h) != NUMBERS[least] {
        return;
    }
    if most < 5 {
        seen.pairs[least][most] += 1;
    } else {
        seen.single[least] += 1;
    }
    tally.compare(&table::refusal(&h), &NUMBERS[least], || {
        format!("the table's number of {h:?}")
    });
    refused(tally, h, NUMBERS[least]);
}

fn sequence(tally: &mut Tally, random: &mut Random, seen: &mut Seen) {
    let mut maker = Maker::new(random);
    let mut rust = maker.chain();
    let (adjust, base) = (maker.auto_adjust, maker.base);
    let mut state = new(tally, maker.discount, adjust as u8, base, chain::STATE);
    if random.once_in(10) {
        let any = states::arbitrary(random, adjust, base);
        state = states::bytes(random, &any, base);
        rust = PredictorCorrector::of_state(any);
    }
    seen.shingles.insert(maker.shingle);
    seen.bases.insert(base);
    for _ in 0..READINGS {
        if random.once_in(40) {
            set(tally, random, &mut state, &mut rust);
        }
        let reading = maker.next(random, &rust);
        seen.crowds.insert(reading.neighbours.len());
        let handed = Handed::new(&state, &reading);
        let number = table::refusal(&handed);
        if number != 0 {
            // The last reading has used up a count.
            tally.compare(&number, &COUNT, || "a refused reading".to_string());
            refused(tally, handed, number);
            seen.used_up += 1;
            return;
        }
        damaged(tally, random, handed.clone(), seen);
        let (after, result, way) = judge(tally, &handed, &mut rust, &reading);
        state = after;
        seen.accepted += 1;
        seen.exits.count(&reading, adjust, way);
        maker.judged(&reading, &result);
    }
}

fn report(tally: &mut Tally, seen: &Seen) {
    println!(
        "    accepted {}, by exit, strategy and auto adjust:",
        seen.accepted
    );
    seen.exits.report(tally, LEAST);
    for (k, number) in NUMBERS.iter().enumerate() {
        let pairs = NUMBERS[k..].iter().zip(&seen.pairs[k][k..]);
        let pairs: Vec<String> = pairs.map(|(b, n)| format!("with {b}: {n}")).collect();
        println!(
            "    refused {number}: alone {}, {}",
            seen.single[k],
            pairs.join(", ")
        );
        let least = seen.pairs[k][k..].iter().min().expect("a pair");
        tally.compare(&(*least >= LEAST && seen.single[k] >= LEAST), &true, || {
            format!("damages that came up too seldom with {number}")
        });
    }
    println!(
        "    refused 6 by a count that readings have used up: {}",
        seen.used_up
    );
    let whole = (seen.shingles.len(), (seen.bases.len(), seen.crowds.len()));
    tally.compare(&whole, &(64, (16, 257)), || {
        "shingles, bases and numbers of neighbours that came up".to_string()
    });
}

pub fn compare(tally: &mut Tally, random: &mut Random) {
    for base in [0, 1, 16, 17, usize::MAX] {
        for adjust in [0, 1, 2, 255] {
            for discount in [0.0, 0.5, 1.0, -0.5, f64::NAN] {
                for len in [0, 149, 1309, 1310, 1311] {
                    new(tally, discount, adjust, base, len);
                }
            }
        }
    }
    for len in 0..=2700 {
        new(tally, 0.5, 1, 4, len);
    }
    let mut seen = Seen::default();
    for _ in 0..SEQUENCES {
        sequence(tally, random, &mut seen);
    }
    report(tally, &seen);
}
