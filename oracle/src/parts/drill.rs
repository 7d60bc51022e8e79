//! Document 01's drill sheet, every row: the Rust's figures, ours where a C function gives them, and
//! document 01's own. The printed lines are the program drill_rows' expected output.

use rcflib::common::descriptor::Descriptor;
use rcflib::common::deviation::Deviation;
use rcflib::common::divector::DiVector;
use rcflib::trcf::basicthresholder::{BasicThresholder, Numbers};
use rcflib::trcf::predictorcorrector::PredictorCorrector;
use rcflib::trcf::types::{ScoringStrategy, TransformMethod};

use crate::bytes::Bytes;
use crate::chain::{self, Handed};
use crate::random::Random;
use crate::readings::making::no_anomaly;
use crate::readings::table::{READING_BASE, SHINGLE};
use crate::readings::{Reading, METHODS};
use crate::refusals::RANGE;
use crate::tally::Tally;
use crate::thresholders::Call;
use crate::{ours, vectors};

const EXPECTED: &str = "crates/drill_rows/stdout";

/// A row: its title, the Rust's figures, document 01's and ours, as they are printed.
struct Row {
    title: String,
    rust: String,
    said: String,
    ours: Option<String>,
}

fn row(title: &str, rust: String, said: String, ours: Option<String>) -> Row {
    Row {
        title: title.to_string(),
        rust,
        said,
        ours,
    }
}

/// Numbers by their bits.
fn wide(list: &[f64]) -> String {
    let words = list.iter().map(|x| format!(" {:016x}", x.to_bits()));
    words.collect()
}

fn single(list: &[f32]) -> String {
    let words = list.iter().map(|x| format!(" {:08x}", x.to_bits()));
    words.collect()
}

fn whole(list: &[usize]) -> String {
    list.iter().map(|n| format!(" {n}")).collect()
}

fn figures(d: &Deviation) -> [f64; 3] {
    [d.sum, d.sum_squared, d.weight]
}

/// The scores 1 and 2 counted by both sides.
fn scored(discount: f64) -> (Deviation, Vec<u8>) {
    let mut rust = Deviation::new(discount).expect("a discount below 1");
    let mut state = vec![0; Deviation::SIZE];
    let mut refusals = ours::deviation_new(discount, &mut state);
    for score in [1.0, 2.0] {
        rust.update(score);
        refusals += ours::deviation_update(&mut state, score);
    }
    assert_eq!(refusals, 0);
    (rust, state)
}

/// The number behind a yes.
fn asked(state: &[u8], call: fn(&[u8], &mut [u8]) -> u8) -> f64 {
    let mut out = [0xa5; 9];
    assert_eq!((call(state, &mut out), out[0]), (0, 1));
    f64::get(&out[1..])
}

fn statistics() -> Vec<Row> {
    let (rust, state) = scored(0.0);
    let [a, b, c] = figures(&rust);
    let [x, y, z] = figures(&Deviation::get(&state));
    let mean = asked(&state, ours::deviation_mean);
    let deviation = asked(&state, ours::deviation_deviation);
    let first = row(
        "discount 0, scores 1, 2",
        wide(&[a, b, c, rust.mean(), rust.deviation()]),
        wide(&[3.0, 5.0, 2.0, 1.5, 0.5]),
        Some(wide(&[x, y, z, mean, deviation])),
    );
    let (rust, state) = scored(0.5);
    let second = row(
        "discount 0.5, scores 1, 2",
        wide(&figures(&rust)),
        wide(&[2.5, 4.5, 1.5]),
        Some(wide(&figures(&Deviation::get(&state)))),
    );
    // A score of 0 counted over a sum of 1 leaves the factor.
    let mut rust = Deviation::create(0.25, 1.0, 1.0, 1.0, 0);
    let mut state = rust.bytes();
    rust.update(0.0);
    assert_eq!(ours::deviation_update(&mut state, 0.0), 0);
    let third = row(
        "discount 0.25, count 0, factor",
        wide(&[rust.sum]),
        wide(&[0.5]),
        Some(wide(&[Deviation::get(&state).sum])),
    );
    vec![first, second, third]
}

/// A thresholder's threshold and grade. What document 01 leaves open must not matter.
fn graded(
    title: &str,
    at_one: bool,
    score: f32,
    method: Option<TransformMethod>,
    said: [f32; 2],
) -> Row {
    let mut answers = Vec::new();
    for adjust in [false, true] {
        for shingle in [1, 4] {
            for code in 0..METHODS.len() as u8 {
                if method.is_none_or(|m| m == METHODS[code as usize]) {
                    answers.push(answer(
                        adjust,
                        at_one,
                        Call::ThresholdAndGrade(score, code, shingle),
                    ));
                }
            }
        }
    }
    let (rust, ours) = answers[0].clone();
    assert!(
        answers.iter().all(|a| a.0 == rust && a.1 == ours),
        "{title}"
    );
    row(title, rust, single(&said), Some(ours))
}

/// The Rust's answer and ours, each from a new state of its own: the z factors differ, and no row
/// reaches them.
fn answer(adjust: bool, at_one: bool, call: Call) -> (String, String) {
    let made = BasicThresholder::new_adjustible(0.01, adjust);
    let mut rust = made.expect("a discount below 1");
    let mut state = [0; Numbers::SIZE];
    assert_eq!(ours::thresholder_new(0.01, adjust as u8, &mut state), 0);
    if at_one {
        rust.set_absolute_threshold(1.0);
        rust.set_initial_threshold(1.0);
        for set in [
            Call::SetAbsoluteThreshold(1.0),
            Call::SetInitialThreshold(1.0),
        ] {
            assert_eq!(set.ours(&mut state, &mut []), 0);
        }
    }
    let mut out = [0xa5; 8];
    assert_eq!(call.ours(&mut state, &mut out), 0);
    let shown = |bytes: &[u8]| single(&[f32::get(bytes), f32::get(&bytes[4..])]);
    (shown(&call.rust(&mut rust)), shown(&out))
}

fn thresholds() -> Vec<Row> {
    let none = Some(TransformMethod::NONE);
    vec![
        graded("fresh, NONE, score NaN", false, f32::NAN, none, [1.5, 1.0]),
        graded("both at 1, score 1", true, 1.0, None, [1.0, 0.0]),
        graded("both at 1, score 1.0625", true, 1.0625, None, [1.0, 0.0625]),
        graded("both at 1, score 1.25", true, 1.25, None, [1.0, 0.3125]),
        graded("both at 1, score 1.8125", true, 1.8125, None, [1.0, 1.0]),
        graded("fresh, score 1.4", false, 1.4, None, [1.5, 0.0]),
        graded("fresh, score 1.5", false, 1.5, None, [1.5, 1.0]),
    ]
}

fn blocks(title: &str, v: DiVector, gaps: &[usize], said: usize) -> Row {
    let rust = |&gap: &usize| v.max_gap_contribution(2, gap).expect("a block");
    let ours = |&gap: &usize| {
        let mut out = [0xa5; 8];
        let refusal = vectors::max_gap_contribution(&v.high, &v.low, 2, gap, &mut out);
        assert_eq!(refusal, 0);
        u64::from_le_bytes(out) as usize
    };
    let (rust, ours): (Vec<usize>, Vec<usize>) = gaps.iter().map(|g| (rust(g), ours(g))).unzip();
    row(
        title,
        whole(&rust),
        whole(&vec![said; gaps.len()]),
        Some(whole(&ours)),
    )
}

fn attributions() -> Vec<Row> {
    let rising = DiVector {
        high: vec![1.0, 2.0, 3.0, 4.0],
        low: vec![0.0; 4],
    };
    let ones = DiVector {
        high: vec![1.0; 4],
        low: vec![1.0; 4],
    };
    let mut rust = DiVector::empty(2);
    let mut ours = rust.clone();
    rust.normalize(4.0);
    assert_eq!(vectors::normalize(&mut ours.high, &mut ours.low, 4.0), 0);
    vec![
        blocks("high 1, 2, 3, 4, gaps 1, 2, 3", rising, &[1, 2, 3], 1),
        blocks("all ones, gap 2", ones, &[2], 0),
        row(
            "zeros of length 2 to 4",
            wide(&[rust.high, rust.low].concat()),
            wide(&[1.0; 4]),
            Some(wide(&[ours.high, ours.low].concat())),
        ),
    ]
}

/// The corrector has no C function of its own.
fn corrected(gap: usize, said: [f32; 4]) -> Row {
    let mut last = Descriptor::default();
    let mut anomaly = no_anomaly();
    anomaly.expected_rcf_point = vec![5.0, 6.0, 7.0, 8.0];
    anomaly.anomalous_rcf_point = vec![5.0, 6.0, 7.0, 18.0];
    last.last_anomaly = Some(anomaly);
    let point = [1.0, 2.0, 3.0, 4.0];
    let timed = [false, true].map(|timed| {
        PredictorCorrector::apply_basic_corrector(&point, gap, 4, 1, &last, true, timed)
    });
    assert_eq!(timed[0], timed[1]);
    row(
        &format!("corrector, gap {gap}"),
        single(&timed[0]),
        single(&said),
        None,
    )
}

fn steps() -> Vec<Row> {
    let path = |differenced| PredictorCorrector::path_deviation(&[1.0, 3.0, 6.0], 1, differenced);
    vec![
        corrected(1, [6.0, 7.0, 8.0, 14.0]),
        corrected(4, [11.0, 2.0, 3.0, 4.0]),
        corrected(5, [1.0, 2.0, 3.0, 4.0]),
        row(
            "path deviation",
            single(&[path(false)]),
            single(&[2.5]),
            None,
        ),
        row(
            "path deviation, differenced",
            single(&[path(true)]),
            single(&[2.0]),
            None,
        ),
    ]
}

/// A calm reading of the given sizes.
fn reading(shingle: usize, base: usize) -> Reading {
    let n = shingle * base;
    Reading {
        shingle,
        base,
        strategy: ScoringStrategy::DISTANCE,
        method: TransformMethod::NONE,
        time_augmented: false,
        values_seen: 1,
        point: vec![1.0; n],
        scale: vec![1.0; base],
        shift: vec![0.0; base],
        deviations: vec![0.1; base],
        score: 1.0,
        corrected_score: 1.0,
        attribution: DiVector::empty(n),
        expected_attribution: DiVector::empty(n),
        median: vec![0.0; n],
        neighbours: vec![],
        last: Descriptor::default(),
    }
}

/// The number that a reading of these sizes gets, on a state of the same base.
fn sized(shingle: usize, base: usize) -> usize {
    let mut state = vec![0; chain::STATE];
    assert_eq!(chain::new(0.0, 0, 16, &mut state), 0);
    state[chain::BASE] = base as u8;
    let mut h = Handed::new(&state, &reading(shingle, base));
    assert_eq!(
        (h.reading[SHINGLE], h.reading[READING_BASE]),
        (shingle as u8, base as u8)
    );
    h.judge() as usize
}

/// The Rust takes every size; of refusals the figure is document 01's alone.
fn sizes() -> Vec<Row> {
    let made = PredictorCorrector::new(0.0, false, 16);
    let mut rust = made.expect("a discount below 1");
    reading(64, 16).judge(&mut rust);
    rust.set_horizon(1.0);
    let mut state = vec![0; chain::STATE];
    assert_eq!(chain::new(0.0, 0, 17, &mut state), RANGE);
    assert_eq!(chain::new(0.0, 0, 16, &mut state), 0);
    let horizon = chain::set_horizon(&mut state, 1.0) as usize;
    let mut rows = Vec::new();
    for (title, ours, said) in [
        ("shingle 64, base 16", sized(64, 16), 0),
        ("shingle 65, base 16", sized(65, 16), 2),
        ("shingle 64, base 17", sized(64, 17), 2),
        ("horizon 1", horizon, 0),
    ] {
        rows.push(row(
            title,
            whole(&[said]),
            whole(&[said]),
            Some(whole(&[ours])),
        ));
    }
    rows
}

pub fn compare(tally: &mut Tally, _: &mut Random) {
    let rows = [statistics(), thresholds(), attributions(), steps(), sizes()];
    let mut lines = String::new();
    for row in rows.iter().flatten() {
        let case = |who: &str| format!("{who}: {}", row.title);
        tally.compare(&(row.rust == row.said), &true, || case("the Rust"));
        if let Some(ours) = &row.ours {
            tally.compare(&(*ours == row.said), &true, || case("ours"));
        }
        lines += &format!("{}:{}\n", row.title, row.rust);
    }
    print!("{lines}");
    let stored = std::fs::read_to_string(EXPECTED).unwrap_or_default();
    tally.compare(&(stored == lines), &true, || format!("stored: {EXPECTED}"));
}
