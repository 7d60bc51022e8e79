//! A higher score never earns a lower grade (document 02, A8): what is proved of our definitions,
//! tried on the Rust's answers, which ours are compared with.

use rcflib::common::deviation::Deviation;
use rcflib::trcf::basicthresholder::Numbers;

use crate::fresh;
use crate::grades::kinds::{Kinds, List, SOURCES};
use crate::grades::{making, Pair, Question, Source, State};
use crate::random::Random;
use crate::same::Same;
use crate::tally::Tally;

const STATES: usize = 1_000_000;

/// How many questions are put to a state.
const QUESTIONS: usize = 6;

/// Of ten states, how many come from where.
const SHARES: [Source; 10] = {
    let [calls, agreeing, any] = SOURCES;
    [
        calls, agreeing, any, calls, agreeing, any, calls, agreeing, any, calls,
    ]
};

/// A grade as sixteenths: the whole number, if it is one from 0 to 16 and the grade exactly that.
fn sixteenths(grade: f32) -> Option<usize> {
    let whole = (16.0 * grade) as usize;
    (whole <= 16 && (whole as f32 / 16.0).to_bits() == grade.to_bits()).then_some(whole)
}

/// Whether a larger score has a smaller grade, or an equal one another. The scores are sorted.
fn falls(scores: &[f32], grades: &[f32]) -> bool {
    let mut pairs = scores.windows(2).zip(grades.windows(2));
    pairs.any(|(x, g)| !(g[0] == g[1] || x[0] < x[1] && g[0] < g[1]))
}

/// One score: ours is the Rust's answer.
fn answer(tally: &mut Tally, state: &State, q: &Question, score: f32) -> Pair {
    let rust = state.rust(score, q);
    tally.compare(&state.ours(score, q), &(0, rust), || {
        format!("{} by {q:?} of {}", score.show(), state.numbers.show())
    });
    rust
}

/// The threshold that the Rust computes, whatever the score. A NaN is not below it, and `minf32` and
/// `maxf32` lead it to the largest grade: so it is answered with this threshold and grade 1, or with
/// grade 0 where the threshold is 0. A score of -inf is answered with it too, unless it is a NaN and
/// the grade 0: then with itself.
fn computed(tally: &mut Tally, state: &State, q: &Question) -> f32 {
    let (threshold, grade) = answer(tally, state, q, f32::NAN);
    let expected = if threshold == 0.0 { 0.0 } else { 1.0 };
    tally.compare(&grade, &expected, || {
        let n = &state.numbers;
        format!("the Rust's grade of NaN by {q:?} of {}", n.show())
    });
    threshold
}

/// What holds of all states, of the Rust's answers along a list: grades are whole sixteenths, and 0
/// below the computed threshold and where that is 0; what is answered beside them bears it out, as
/// it is this threshold, or the score where that is not below and earns 0.
fn shape(tally: &mut Tally, kinds: &mut Kinds, list: &List, answers: &[Pair]) {
    let mut sound = [true; 3];
    for (&score, &(threshold, grade)) in list.scores.iter().zip(answers) {
        let below = score < list.threshold || list.threshold == 0.0;
        let itself = !below && grade == 0.0;
        match sixteenths(grade) {
            Some(k) => kinds.grade(list.state.source, k),
            None => sound[0] = false,
        }
        sound[1] &= !below || grade == 0.0;
        sound[2] &= threshold.same(if itself { &score } else { &list.threshold });
    }
    tally.compare(&sound, &[true; 3], || {
        format!("the Rust's {answers:?} for {}", shown(list))
    });
}

fn shown(list: &List) -> String {
    let (q, n) = (list.question, &list.state.numbers);
    format!("{} by {q:?} of {}", list.scores.to_vec().show(), n.show())
}

/// The grades along a list rise, where the counts agree and the initial threshold is no NaN. The
/// absolute one may be.
fn rising(tally: &mut Tally, kinds: &mut Kinds, list: &List) {
    let fall = falls(list.scores, list.grades);
    let initial = list.state.numbers.initial_threshold;
    if !list.state.counts_agree() || initial.is_nan() {
        kinds.left_out(list.state, fall);
        return;
    }
    kinds.rising(list);
    tally.compare(&fall, &false, || {
        format!("the Rust's {:?} for {}", list.grades, shown(list))
    });
}

/// One question with a list of scores.
fn ask(tally: &mut Tally, kinds: &mut Kinds, state: &State, random: &mut Random) {
    let question = &making::question(random);
    let threshold = computed(tally, state, question);
    let scores = making::scores(random, state, question, threshold);
    let answers = scores.map(|x| answer(tally, state, question, x));
    let list = List {
        state,
        question,
        threshold,
        scores: &scores,
        grades: &answers.map(|(_, grade)| grade),
    };
    shape(tally, kinds, &list, &answers);
    rising(tally, kinds, &list);
}

/// DISTANCE's grade, which rises for every state.
fn distance(tally: &mut Tally, kinds: &mut Kinds, state: &State, random: &mut Random) {
    let scores = making::distance_scores(random, state);
    let mut one = |score: f32| {
        let rust = state.rust_distance(score);
        tally.compare(&state.our_distance(score), &(0, rust), || {
            format!("DISTANCE's, {} of {}", score.show(), state.numbers.show())
        });
        rust.1
    };
    one(f32::NAN);
    let grades = scores.map(one);
    kinds.distance(state, &grades);
    tally.compare(&falls(&scores, &grades), &false, || {
        let n = &state.numbers;
        format!("DISTANCE's {grades:?} for {scores:?} of {}", n.show())
    });
}

/// A state that calls have led to: both sides' are the same, and its counts agree.
fn by_calls(tally: &mut Tally, random: &mut Random) -> State {
    let (state, answered) = making::by_calls(random);
    let ours = (answered, state.our_numbers());
    let rust = (true, state.numbers.clone());
    tally.compare(&ours, &rust, || "a state that calls led to".into());
    tally.compare(&state.counts_agree(), &true, || {
        format!("the Rust's counts in {}", state.numbers.show())
    });
    state
}

fn try_state(tally: &mut Tally, kinds: &mut Kinds, source: Source, random: &mut Random) {
    let state = match source {
        Source::Calls => by_calls(tally, random),
        _ => making::any(source, random),
    };
    kinds.state(&state);
    distance(tally, kinds, &state, random);
    for _ in 0..QUESTIONS {
        ask(tally, kinds, &state, random);
    }
}

/// A new state, changed.
fn small(change: impl FnOnce(&mut Numbers)) -> State {
    let made = fresh::thresholder(0.0, false).expect("a discount below 1");
    let mut numbers = made.numbers();
    change(&mut numbers);
    State::of_numbers(Source::Any, numbers)
}

fn set(n: &mut Numbers, absolute: f32, initial: f32) {
    (n.absolute_threshold, n.initial_threshold) = (absolute, initial);
}

/// A count of 21 with a primary statistic that has counted 1.
fn set_apart(n: &mut Numbers) {
    set(n, -0.0, -3.0);
    n.auto_threshold = true;
    n.count = 21;
    n.primary_deviation = Deviation::create(0.0, 1.0, f64::NEG_INFINITY, f64::INFINITY, 1);
}

/// Small states, each with two scores and the sixteenths that they earn. The first two lack a premise,
/// and fall.
fn small_cases(tally: &mut Tally) {
    let q = Question {
        factor: 2.0,
        method: 0,
        shingle: 1,
    };
    let cases = [
        (
            small(|n| set(n, -1.0, f32::NAN)),
            [-2.0, -1.5],
            [16.0, 10.0],
        ),
        (small(set_apart), [-2.0, 1.0], [16.0, 0.0]),
        (small(|n| set(n, 1.0, 1.0)), [1.0, 17.0 / 16.0], [0.0, 1.0]),
        (small(|_| ()), [0.0, 1.0], [0.0, 0.0]),
    ];
    for (state, scores, sixteenths) in cases {
        let grades = scores.map(|x| answer(tally, &state, &q, x).1);
        let case = || format!("the Rust's for {scores:?} of {}", state.numbers.show());
        tally.compare(&grades, &sixteenths.map(|k| k / 16.0), case);
        let fall = sixteenths[0] > sixteenths[1];
        tally.compare(&falls(&scores, &grades), &fall, case);
    }
}

pub fn compare(tally: &mut Tally, random: &mut Random) {
    let mut kinds = Kinds::new();
    small_cases(tally);
    for source in SHARES.iter().cycle().take(STATES) {
        try_state(tally, &mut kinds, *source, random);
    }
    kinds.report(tally);
}
