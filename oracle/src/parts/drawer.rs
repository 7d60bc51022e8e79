//! The host's drawer end to end: the same stand-in forest behind it and behind detect_and_modify.
//! Every call of the forest with its arguments, verdicts, buffers, states and what is kept for the
//! next reading. The Rust leaves the last descriptor to its caller; here that is this file.

use std::collections::BTreeSet;

use rcflib::common::descriptor::{AnomalyInformation, Descriptor};
use rcflib::common::divector::DiVector;
use rcflib::errors::RCFError;
use rcflib::rcf::{AugmentedRCF, Call, RCFLarge};
use rcflib::trcf::basicthresholder::BasicThresholder;
use rcflib::trcf::predictorcorrector::PredictorCorrector;
use rcflib::trcf::types::{CorrectionMode, ScoringStrategy, TransformMethod};
use withdrawal_watch as host;
use withdrawal_watch::{Attribution, Drawer, Forest, LastDescriptor, Withdrawal};

use crate::chain::{said, state_of, Handed};
use crate::random::Random;
use crate::readings::exits::{exit, Exits};
use crate::readings::making::{no_anomaly, Maker};
use crate::readings::{states, table, verdict, Reading, Verdict};
use crate::refusals::COUNT;
use crate::tally::Tally;
use crate::values;

const SEQUENCES: u64 = 25_000;
const READINGS: u64 = 50;

/// How many readings there have to be, and how often each exit has to come up for each strategy,
/// with auto adjust and without.
const LEAST_READINGS: u64 = 1_000_000;
const LEAST: u64 = 1_000;

/// What came up.
#[derive(Default)]
struct Seen {
    exits: Exits,
    readings: u64,
    calls: u64,
    restarts: u64,
    used_up: u64,
    spoiled: u64,
    /// Readings after which the drawer has no scores yet.
    empty: u64,
    /// Corrected points of differenced, of time-augmented and of other readings.
    corrected: [u64; 3],
    shingles: BTreeSet<usize>,
    bases: BTreeSet<usize>,
}

impl Seen {
    fn count(&mut self, reading: &Reading, result: &Descriptor, calls: &[Call], adjust: bool) {
        self.readings += 1;
        self.calls += calls.len() as u64;
        self.exits.count(reading, adjust, exit(result, calls));
        if calls.len() < 2 || !reading.corrects() {
            return;
        }
        let differenced = matches!(
            reading.method,
            TransformMethod::DIFFERENCE | TransformMethod::NORMALIZE_DIFFERENCE
        );
        let kind = match (differenced, reading.time_augmented) {
            (true, _) => 0,
            (_, true) => 1,
            _ => 2,
        };
        self.corrected[kind] += 1;
    }
}

/// The stand-in forest, as the host asks it.
struct Lending<'a>(&'a RCFLarge<u64, u64>);

fn lent(v: DiVector) -> Attribution {
    Attribution {
        high: v.high,
        low: v.low,
    }
}

impl Forest for Lending<'_> {
    type Error = RCFError;

    fn score(&self, point: &[f32]) -> Result<f64, RCFError> {
        self.0.score(point)
    }

    fn attribution(&self, point: &[f32]) -> Result<Attribution, RCFError> {
        self.0.attribution(point).map(lent)
    }

    fn density_interpolant(&self, point: &[f32]) -> Result<Attribution, RCFError> {
        self.0.density_interpolant(point).map(|m| lent(m.distance))
    }

    fn near_neighbor_list(&self, point: &[f32], percentile: usize) -> Result<Vec<f32>, RCFError> {
        let list = self.0.near_neighbor_list(point, percentile)?;
        Ok(list.into_iter().flat_map(|e| e.1).collect())
    }

    fn conditional_field(
        &self,
        positions: &[usize],
        point: &[f32],
        centrality: f64,
        project: bool,
        max_number: usize,
    ) -> Result<Vec<f32>, RCFError> {
        self.0
            .conditional_field(positions, point, centrality, project, max_number)
            .map(|summary| summary.median)
    }
}

/// A call and its arguments as numbers, any NaN as the same one.
fn numbers(call: &Call) -> Vec<u64> {
    let (kind, arguments, point) = match call {
        Call::Score(point) => (0, vec![], point),
        Call::Density(point) => (1, vec![], point),
        Call::Attribution(point) => (2, vec![], point),
        Call::Neighbours(point, percentile) => (3, vec![*percentile as u64], point),
        Call::Field(positions, point, (centrality, project, most)) => {
            let mut arguments = vec![centrality.to_bits(), *project as u64, *most as u64];
            arguments.extend(positions.iter().map(|&at| at as u64));
            (4, arguments, point)
        }
    };
    let bits = |x: &f32| {
        if x.is_nan() {
            u64::MAX
        } else {
            x.to_bits().into()
        }
    };
    let mut out = vec![kind, arguments.len() as u64];
    out.extend(arguments);
    out.extend(point.iter().map(bits));
    out
}

fn strategy(s: ScoringStrategy) -> host::ScoringStrategy {
    match s {
        ScoringStrategy::EXPECTED_INVERSE_HEIGHT => host::ScoringStrategy::ExpectedInverseHeight,
        ScoringStrategy::DISTANCE => host::ScoringStrategy::Distance,
    }
}

fn method(m: TransformMethod) -> host::TransformMethod {
    match m {
        TransformMethod::NONE => host::TransformMethod::None,
        TransformMethod::WEIGHTED => host::TransformMethod::Weighted,
        TransformMethod::DIFFERENCE => host::TransformMethod::Difference,
        TransformMethod::SUBTRACT_MA => host::TransformMethod::SubtractMa,
        TransformMethod::NORMALIZE => host::TransformMethod::Normalize,
        TransformMethod::NORMALIZE_DIFFERENCE => host::TransformMethod::NormalizeDifference,
    }
}

fn mode(m: host::CorrectionMode) -> CorrectionMode {
    match m {
        host::CorrectionMode::None => CorrectionMode::NONE,
        host::CorrectionMode::Noise => CorrectionMode::NOISE,
        host::CorrectionMode::MultiMode => CorrectionMode::MULTI_MODE,
        host::CorrectionMode::AnomalyInShingle => CorrectionMode::ANOMALY_IN_SHINGLE,
        host::CorrectionMode::ConditionalForecast => CorrectionMode::CONDITIONAL_FORECAST,
        host::CorrectionMode::Forecast => CorrectionMode::FORECAST,
        host::CorrectionMode::DataDrift => CorrectionMode::DATA_DRIFT,
    }
}

fn withdrawal(r: &Reading) -> Withdrawal<'_> {
    Withdrawal {
        shingle_size: r.shingle,
        base_dimension: r.base,
        scoring_strategy: strategy(r.strategy),
        transform_method: method(r.method),
        time_augmented: r.time_augmented,
        values_seen: r.values_seen,
        rcf_point: &r.point,
        scale: &r.scale,
        shift: &r.shift,
        difference_deviations: &r.deviations,
    }
}

/// What the host says, its buffers empty where nothing was written: the verdict, the relative index,
/// the expected point and both halves of the attribution.
type Written = ((Verdict, i32), (Vec<f32>, (Vec<f64>, Vec<f64>)));

fn of_host(v: host::Verdict) -> Written {
    match v {
        host::Verdict::Skipped => ((Verdict::Skipped, 0), Default::default()),
        host::Verdict::Quiet { threshold } => ((Verdict::Quiet(threshold), 0), Default::default()),
        host::Verdict::Corrected { threshold, mode: m } => (
            (Verdict::Corrected(threshold, mode(m)), 0),
            Default::default(),
        ),
        host::Verdict::Raised {
            threshold,
            grade,
            relative_index,
            expected_point,
            attribution,
        } => (
            (Verdict::Raised(threshold, grade), relative_index),
            (expected_point, (attribution.high, attribution.low)),
        ),
    }
}

fn of_rust(result: &Descriptor) -> Written {
    let raised = result.expected_rcf_point.clone();
    let index = raised.as_ref().map_or(0, |_| result.relative_index);
    let attribution = result.attribution.clone().unwrap_or(DiVector::empty(0));
    let halves = (attribution.high, attribution.low);
    (
        (verdict(result), index),
        (raised.unwrap_or_default(), halves),
    )
}

/// What our library says of the fully lent reading.
fn of_handed(h: &Handed) -> Written {
    let (verdict, index) = said(&h.verdict);
    let buffers = match verdict {
        Verdict::Raised(..) => (h.expected.clone(), (h.out_high.clone(), h.out_low.clone())),
        _ => Default::default(),
    };
    ((verdict, index), buffers)
}

/// The Rust's caller: a judged descriptor is the last one, a raised one the last anomaly. A threshold
/// that is not finite, which the entry checks would refuse, leaves the one before in its place.
fn keep(last: &mut Descriptor, reading: &Reading, result: &Descriptor) -> bool {
    last.score = result.score;
    last.scoring_strategy = result.scoring_strategy;
    last.values_seen = result.values_seen;
    if let Some(expected) = &result.expected_rcf_point {
        last.last_anomaly = Some(AnomalyInformation {
            expected_rcf_point: expected.clone(),
            anomalous_rcf_point: reading.point.clone(),
            relative_index: result.relative_index,
            values_seen: result.values_seen,
            attribution: result.attribution.clone(),
            score: result.score,
            grade: result.anomaly_grade,
            ..no_anomaly()
        });
    }
    if result.threshold.is_finite() {
        last.threshold = result.threshold;
    }
    result.threshold.is_finite()
}

/// A last descriptor's numbers, then its anomaly's, those of a zero without a sign.
type Kept = ((Vec<f32>, Vec<i32>), (Vec<f32>, Vec<f32>));

fn kept_by_rust(last: &Descriptor) -> Kept {
    let code = last.scoring_strategy as i32;
    let seen = last.values_seen as i32;
    match &last.last_anomaly {
        None => (
            (vec![last.score + 0.0, last.threshold], vec![code, seen]),
            Default::default(),
        ),
        Some(a) => (
            (
                vec![last.score + 0.0, last.threshold, a.score, a.grade],
                vec![
                    code,
                    seen,
                    a.relative_index,
                    a.values_seen as i32,
                    a.attribution.is_some() as i32,
                ],
            ),
            (a.expected_rcf_point.clone(), a.anomalous_rcf_point.clone()),
        ),
    }
}

fn kept_by_host(drawer: &Drawer) -> Kept {
    let last: LastDescriptor = drawer.last_descriptor();
    let (score, threshold) = (last.score + 0.0, last.threshold);
    let head = [
        last.scoring_strategy.code() as i32,
        drawer.values_seen() as i32,
    ];
    match (last.last_anomaly, drawer.last_anomaly()) {
        (Some(a), Some(whole)) => (
            (
                vec![score, threshold, a.score, whole.grade],
                vec![
                    head[0],
                    head[1],
                    a.relative_index,
                    a.values_seen as i32,
                    a.has_attribution as i32,
                ],
            ),
            (
                a.expected_rcf_point.to_vec(),
                a.anomalous_rcf_point.to_vec(),
            ),
        ),
        _ => ((vec![score, threshold], head.to_vec()), Default::default()),
    }
}

/// Mean and deviation as the drawer shows them, none of an empty statistic, and the Rust's where its own is
/// not empty.
fn shown_by_host(drawer: &Drawer) -> Vec<f64> {
    let deviation = drawer.primary_deviation();
    drawer.primary_mean().into_iter().chain(deviation).collect()
}

fn shown_by_rust(rust: &PredictorCorrector) -> Vec<f64> {
    let numbers = rust.state().basic_thresholder;
    if numbers.primary_deviation.is_empty() {
        return vec![];
    }
    let thresholder = BasicThresholder::of_numbers(numbers);
    vec![thresholder.primary_mean(), thresholder.primary_deviation()]
}

/// One of the setters on both sides.
fn set(random: &mut Random, drawer: &mut Drawer, rust: &mut PredictorCorrector) {
    let x = match random.below(8) {
        0 => values::any32(random, values::list32()),
        _ => random.fraction() as f32,
    };
    let done = match random.below(4) {
        0 => {
            rust.set_z_factor(2.0 + 2.0 * x);
            drawer.set_z_factor(2.0 + 2.0 * x)
        }
        1 => {
            rust.set_lower_threshold(x);
            drawer.set_lower_threshold(x)
        }
        2 => {
            rust.set_initial_threshold(1.0 + x);
            drawer.set_initial_threshold(1.0 + x)
        }
        _ if (0.0..=1.0).contains(&x) => {
            rust.set_horizon(x);
            drawer.set_horizon(x)
        }
        _ => return,
    };
    done.expect("a setting that both take");
}

/// Judges a reading on both sides, and ours once more with everything lent.
fn judge(
    tally: &mut Tally,
    reading: &Reading,
    drawer: &mut Drawer,
    rust: &mut PredictorCorrector,
) -> (Descriptor, Vec<Call>) {
    let case = |what: &str| format!("{what}: {reading:?}");
    let before = drawer.state_bytes().to_vec();
    let mut handed = Handed::new(&before, reading);
    let number = handed.judge();
    let (result, calls) = reading.judge(rust);
    let forest = RCFLarge::<u64, u64>::lending(reading.shingle * reading.base, reading.lent());
    match drawer.judge(&withdrawal(reading), &Lending(&forest)) {
        Ok(verdict) => {
            let ours = of_host(verdict);
            tally.compare(&ours, &of_rust(&result), || case("verdict and buffers"));
            tally.compare(&(0, ours), &(number, of_handed(&handed)), || {
                case("verdict and buffers, everything lent")
            });
        }
        Err(why) => tally.compare(&true, &false, || case(&why.to_string())),
    }
    let each = |calls: &[Call]| calls.iter().map(numbers).collect::<Vec<_>>();
    tally.compare(&each(&forest.calls()), &each(&calls), || case("calls"));
    let after = drawer.state_bytes();
    tally.compare(&state_of(after), &rust.state(), || case("state"));
    tally.compare(&after[..], &handed.state, || case("state, everything lent"));
    let mut bytes = before;
    if result.score != 0.0 {
        states::put(&rust.state(), reading.base, &mut bytes);
    }
    tally.compare(&after[..], &bytes, || case("the state's bytes"));
    (result, calls)
}

fn sequence(tally: &mut Tally, random: &mut Random, seen: &mut Seen) {
    let mut maker = Maker::new(random);
    let mut rust = maker.chain();
    let (adjust, base) = (maker.auto_adjust, maker.base);
    let mut drawer = Drawer::new(maker.discount, adjust, base).expect("a discount and a base");
    let mut last = Descriptor::default();
    seen.shingles.insert(maker.shingle);
    seen.bases.insert(base);
    for _ in 0..READINGS {
        if random.once_in(40) {
            set(random, &mut drawer, &mut rust);
        }
        if random.once_in(20) {
            drawer = Drawer::of_bytes(&drawer.to_bytes()).expect("a drawer's own bytes");
            seen.restarts += 1;
        }
        let mut reading = maker.next(random, &rust);
        reading.last = last.clone();
        let number = table::refusal(&Handed::new(drawer.state_bytes(), &reading));
        if number != 0 {
            // The last reading has used up a count.
            tally.compare(&number, &COUNT, || "a refused reading".to_string());
            seen.used_up += 1;
            return;
        }
        let (result, calls) = judge(tally, &reading, &mut drawer, &mut rust);
        seen.count(&reading, &result, &calls, adjust);
        seen.spoiled += !keep(&mut last, &reading, &result) as u64;
        tally.compare(&kept_by_host(&drawer), &kept_by_rust(&last), || {
            format!("what is kept: {reading:?}")
        });
        let shown = shown_by_host(&drawer);
        tally.compare(&shown, &shown_by_rust(&rust), || {
            format!("mean and deviation: {reading:?}")
        });
        seen.empty += shown.is_empty() as u64;
        maker.judged(&reading, &result);
    }
}

pub fn compare(tally: &mut Tally, random: &mut Random) {
    let mut seen = Seen::default();
    for _ in 0..SEQUENCES {
        sequence(tally, random, &mut seen);
    }
    let Seen {
        readings,
        calls,
        restarts,
        spoiled,
        used_up,
        empty,
        corrected: [differenced, timed, others],
        ..
    } = seen;
    println!(
        "    {readings} readings, {calls} calls of the forest, {restarts} restarts, {spoiled} \
         thresholds not finite, {used_up} counts used up, {empty} without scores yet"
    );
    println!(
        "    corrected points: {differenced} differenced, {timed} time-augmented, {others} others"
    );
    seen.exits.report(tally, LEAST);
    let enough = [
        readings / LEAST_READINGS,
        differenced / LEAST,
        timed / LEAST,
        spoiled,
        empty / LEAST,
    ];
    tally.compare(&enough.iter().all(|n| *n > 0), &true, || {
        "readings, corrected points, infinite thresholds or empty drawers that came up too seldom"
            .to_string()
    });
    let whole = (seen.shingles.len(), seen.bases.len());
    tally.compare(&whole, &(64, 16), || {
        "shingles and bases that came up".to_string()
    });
}
