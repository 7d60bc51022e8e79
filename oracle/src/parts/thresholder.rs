//! basicthresholder.rs: each call on states that updates lead to and on arbitrary ones, and the
//! refusals.

use rcflib::trcf::basicthresholder::{BasicThresholder, Numbers};

use crate::bytes::Bytes;
use crate::fresh;
use crate::ours;
use crate::random::Random;
use crate::refusals::{refused, DISCOUNT, LENGTH, RANGE};
use crate::same::Same;
use crate::tally::Tally;
use crate::thresholders::{self, Call};
use crate::values;

const RUNS: u64 = 60_000;
const ARBITRARY: u64 = 1_500_000;

/// The length of a state, and where it has its yes/no.
const STATE: usize = Numbers::SIZE;
const FLAG: usize = 124;

/// What the cases came to: states that updates led to, grades by their size, refused calls.
#[derive(Default)]
struct Reached {
    states: u64,
    zero: u64,
    between: u64,
    one: u64,
    refused: u64,
}

impl Reached {
    /// A call that answers a threshold and a grade counts by the grade.
    fn count(&mut self, answer: &[u8]) {
        if answer.len() == 8 {
            let grade = f32::get(&answer[4..]);
            self.zero += (grade == 0.0) as u64;
            self.between += (0.0 < grade && grade < 1.0) as u64;
            self.one += (grade == 1.0) as u64;
        }
    }
}

/// One call on a state that our side has as bytes and the Rust as its own; both may change.
fn call(
    (tally, reached): (&mut Tally, &mut Reached),
    state: &mut [u8],
    rust: &mut BasicThresholder,
    call: Call,
) {
    let before = state.to_vec();
    let was = rust.numbers();
    let mut out = vec![0xa5; call.room()];
    let answer = call.ours(state, &mut out);
    let case = || format!("{call:?} of {}", was.show());
    let refusal = call.refusal(&was);
    if refusal != 0 {
        let untouched = (before, vec![0xa5; call.room()]);
        let ours = (answer, (state.to_vec(), out));
        tally.compare(&ours, &(refusal, untouched), case);
        reached.refused += 1;
        return;
    }
    let expected = call.rust(rust);
    reached.count(&expected);
    let ours = (answer, (Numbers::get(state), out));
    tally.compare(&ours, &(0, (rust.numbers(), expected)), case);
    if call.room() > 0 {
        tally.compare(&(0, state.to_vec()), &(0, before), case);
    }
}

/// Both sides in step from a new state, each from its own: settings now and then, a score counted
/// in one of the four ways, every question at each state.
fn run(tally: &mut Tally, reached: &mut Reached, random: &mut Random, notable: &[f32]) {
    let start = thresholders::fresh(random);
    let mut state = start.bytes();
    let mut rust = BasicThresholder::of_numbers(start);
    let wild = random.once_in(8);
    let level = 3.0 * random.fraction();
    let spread = random.of(&[0.0, 1e-3, 0.1, 1.0]);
    for _ in 0..random.below(50) {
        if random.once_in(16) {
            let settings = thresholders::settings(random, notable);
            call(
                (tally, reached),
                &mut state,
                &mut rust,
                random.of(&settings),
            );
        }
        let updates = thresholders::updates(|| {
            if wild {
                values::any32(random, notable)
            } else {
                (level + spread * random.fraction()) as f32
            }
        });
        call((tally, reached), &mut state, &mut rust, random.of(&updates));
        reached.states += 1;
        for question in thresholders::questions(random, &rust.numbers(), notable) {
            call((tally, reached), &mut state, &mut rust, question);
        }
    }
}

/// Every call on one state, each from the state as it was.
fn each(
    (tally, reached): (&mut Tally, &mut Reached),
    random: &mut Random,
    s: &Numbers,
    notable: &[f32],
) {
    let mut calls = thresholders::questions(random, s, notable).to_vec();
    calls.extend(thresholders::settings(random, notable));
    calls.extend(thresholders::updates(|| values::any32(random, notable)));
    for one in calls {
        let mut rust = BasicThresholder::of_numbers(s.clone());
        call((tally, reached), &mut s.bytes(), &mut rust, one);
    }
}

fn new(tally: &mut Tally, discount: f64, adjust: u8) {
    let before = [0xa5; STATE];
    let mut out = before;
    let answer = ours::thresholder_new(discount, adjust, &mut out);
    let case = || format!("new of discount {} and {adjust}", discount.show());
    match fresh::thresholder(discount, adjust == 1) {
        Ok(rust) if adjust <= 1 => {
            let ours = (answer, Numbers::get(&out));
            tally.compare(&ours, &(0, rust.numbers()), case);
            tally.compare(&out[FLAG], &adjust, case);
        }
        Ok(_) => tally.compare(&(answer, out), &(RANGE, before), case),
        Err(_) => tally.compare(&(answer, out), &(DISCOUNT, before), case),
    }
}

/// Every kind of call, with arguments that nothing refuses, or a code or horizon that is refused.
fn kinds(refused: bool) -> Vec<Call> {
    let (method, horizon) = if refused { (6, 1.5) } else { (0, 0.5) };
    let mut list = vec![
        Call::ThresholdAndGrade(1.0, method, 1),
        Call::ThresholdAndGradeWithFactor(1.0, 3.0, method, 1),
        Call::SetScoreDifferencing(horizon),
    ];
    if !refused {
        list.extend([
            Call::IsDeviationReady,
            Call::Threshold,
            Call::PrimaryGrade(1.0),
            Call::PrimaryThresholdAndGrade(1.0),
            Call::UpdateThreshold(1.0),
            Call::UpdatePrimary(1.0),
            Call::UpdateBoth(1.0, 1.0),
            Call::Update(1.0, 1.0, 1.0),
            Call::SetZFactor(1.0),
            Call::SetLowerThreshold(1.0),
            Call::SetAbsoluteThreshold(1.0),
            Call::SetInitialThreshold(1.0),
        ]);
    }
    list
}

/// States and answers of other lengths, yes/no bytes above 1, and the smaller of two refusals.
fn refusals(tally: &mut Tally) {
    for adjust in 0..=u8::MAX {
        new(tally, 0.25, adjust);
        new(tally, 1.0, adjust);
    }
    for len in (0..=320).filter(|&len| len != STATE) {
        refused(tally, len, LENGTH, "new", |b| {
            ours::thresholder_new(0.5, 1, b)
        });
        refused(tally, len, RANGE, "new", |b| {
            ours::thresholder_new(0.5, 2, b)
        });
        refused(tally, len, DISCOUNT, "new", |b| {
            ours::thresholder_new(1.0, 2, b)
        });
        for (one, number) in all_kinds(LENGTH) {
            let what = format!("{one:?}");
            refused(tally, len, number, &what, |b| {
                one.ours(b, &mut vec![0; one.room()])
            });
            refused(tally, one.room(), number, &what, |b| {
                one.ours(&mut vec![0; len], b)
            });
        }
    }
    let made = fresh::thresholder(0.5, false).expect("a discount below 1");
    flags_and_answers(tally, &made.numbers().bytes());
}

/// What is refused on a state of its length.
fn flags_and_answers(tally: &mut Tally, good: &[u8]) {
    for flag in 2..=u8::MAX {
        let mut state = good.to_vec();
        state[FLAG] = flag;
        for (one, number) in all_kinds(RANGE) {
            for len in [0, 1, 4, 8, 9] {
                refused(tally, len, number, &format!("{one:?} at {flag}"), |b| {
                    one.ours(&mut state.clone(), b)
                });
            }
            let mut after = state.clone();
            one.ours(&mut after, &mut vec![0; one.room()]);
            tally.compare(&after, &state, || format!("{one:?} at {flag}"));
        }
    }
    for (one, number) in all_kinds(LENGTH) {
        for len in (0..=40).filter(|&len| one.room() > 0 && len != one.room()) {
            refused(tally, len, number, &format!("{one:?}"), |b| {
                one.ours(&mut good.to_vec(), b)
            });
        }
    }
}

/// Every kind of call with the number that refuses it: a code that is none by 2, before `number`.
fn all_kinds(number: u8) -> Vec<(Call, u8)> {
    let plain = kinds(false).into_iter().map(|c| (c, number));
    let worse = kinds(true).into_iter().map(|c| match c {
        Call::SetScoreDifferencing(_) => (c, number),
        _ => (c, RANGE),
    });
    plain.chain(worse).collect()
}

pub fn compare(tally: &mut Tally, random: &mut Random) {
    let (notable32, notable64) = (values::notable32(), values::notable64());
    refusals(tally);
    values::f64s().into_iter().for_each(|x| new(tally, x, 1));
    let mut reached = Reached::default();
    for _ in 0..RUNS {
        run(tally, &mut reached, random, &notable32);
    }
    for _ in 0..ARBITRARY {
        let s = thresholders::arbitrary(random, &notable32, &notable64);
        each((tally, &mut reached), random, &s, &notable32);
    }
    println!(
        "    {} states by updates, {ARBITRARY} arbitrary; grades: 0 {}, between {}, 1 {}; refused {}",
        reached.states, reached.zero, reached.between, reached.one, reached.refused
    );
}
