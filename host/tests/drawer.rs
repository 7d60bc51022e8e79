//! A drawer asks the forest what the Rust asks, in its order and no more, and judges as a watch does
//! that is lent everything.

mod asked;
mod readings;

use asked::{Call, Scripted};
use readings::{fresh, raised};
use withdrawal_watch::{
    Attribution, CorrectionMode, Drawer, NotJudged, Reading, Refusal, ScoringStrategy,
    TransformMethod, Verdict, Watch, Withdrawal,
};

const STRATEGIES: [ScoringStrategy; 2] = [
    ScoringStrategy::ExpectedInverseHeight,
    ScoringStrategy::Distance,
];

const METHODS: [TransformMethod; 6] = [
    TransformMethod::None,
    TransformMethod::Weighted,
    TransformMethod::Difference,
    TransformMethod::SubtractMa,
    TransformMethod::Normalize,
    TransformMethod::NormalizeDifference,
];

/// The withdrawal of the reading that a fresh watch raises.
fn withdrawal(values_seen: usize) -> Withdrawal<'static> {
    let reading = raised();
    Withdrawal {
        shingle_size: 4,
        base_dimension: 1,
        values_seen,
        rcf_point: reading.rcf_point,
        scale: reading.scale,
        shift: reading.shift,
        difference_deviations: reading.difference_deviations,
        ..Withdrawal::default()
    }
}

fn drawer(auto_adjust: bool) -> Drawer {
    Drawer::new(0.01, auto_adjust, 1).expect("a sound discount and base")
}

/// A drawer with an anomaly at 5.
fn after_anomaly(auto_adjust: bool) -> Drawer {
    let mut drawer = drawer(auto_adjust);
    let verdict = drawer.judge(&withdrawal(5), &Scripted::raised());
    assert!(matches!(verdict, Ok(Verdict::Raised { .. })), "{verdict:?}");
    drawer
}

fn score(point: [f32; 4]) -> Call {
    Call::Score(point.to_vec())
}

fn attribution(point: [f32; 4]) -> Call {
    Call::Attribution(point.to_vec())
}

const POINT: [f32; 4] = [2.0, 1.0, 2.0, 9.0];
const EXPECTED: [f32; 4] = [2.0, 1.0, 2.0, 2.0];

fn field() -> Call {
    Call::Field(vec![3], POINT.to_vec(), 1.0, false, 0)
}

/// A drawer without scores is not a calm one. What is skipped or refused counts no score.
#[test]
fn an_empty_drawer_shows_no_scores_yet() {
    let mut drawer = drawer(true);
    let skipped = Scripted {
        scores: vec![0.0],
        ..Scripted::raised()
    };
    assert_eq!(drawer.judge(&withdrawal(5), &skipped), Ok(Verdict::Skipped));
    assert!(drawer.judge(&withdrawal(0), &skipped).is_err());
    assert_eq!(
        (drawer.primary_mean(), drawer.primary_deviation()),
        (None, None)
    );
    assert_eq!(format!("{drawer:.2}"), "no scores yet");
}

/// The deviation of one score is 0, and a number.
#[test]
fn a_drawer_shows_mean_and_deviation_of_its_scores() {
    let mut drawer = Drawer::new(0.0, false, 1).unwrap();
    for (seen, answer) in [(5, 1.25), (6, 1.375)] {
        let forest = Scripted {
            scores: vec![answer],
            ..Scripted::raised()
        };
        let verdict = drawer.judge(&withdrawal(seen), &forest);
        assert_eq!(verdict, Ok(Verdict::Quiet { threshold: 1.5 }));
        if seen == 5 {
            assert_eq!(drawer.to_string(), "mean 1.25, deviation 0");
        }
    }
    assert_eq!(drawer.to_string(), "mean 1.3125, deviation 0.0625");
    assert_eq!(format!("{drawer:.2}"), "mean 1.31, deviation 0.06");
    assert_eq!(format!("{drawer:>27.2}"), "  mean 1.31, deviation 0.06");
    assert_eq!(format!("{drawer:.^28.2}"), ".mean 1.31, deviation 0.06..");
    assert_eq!(format!("{drawer:9.1}"), "mean 1.3, deviation 0.1");
    let again = Drawer::of_bytes(&drawer.to_bytes()).unwrap();
    assert_eq!(again.to_string(), drawer.to_string());
}

/// The weight alone decides: at or below 0 there is no number, and NaN is neither.
#[test]
fn a_state_made_by_hand_is_empty_by_its_weight() {
    let of_weight = |weight: f64| {
        let mut bytes = *Watch::new(0.0, false, 1).unwrap().state_bytes();
        bytes[24..32].copy_from_slice(&weight.to_le_bytes());
        bytes[40..48].copy_from_slice(&3.0f64.to_le_bytes());
        Watch::of_state_bytes(&bytes).unwrap()
    };
    for weight in [0.0, -0.0, -1.0, f64::NEG_INFINITY] {
        assert_eq!(of_weight(weight).primary_mean(), None);
        assert_eq!(of_weight(weight).primary_deviation(), None);
    }
    assert_eq!(of_weight(2.0).primary_mean(), Some(1.5));
    let smallest = of_weight(f64::from_bits(1));
    assert_eq!(smallest.primary_mean(), Some(f64::INFINITY));
    let nan = of_weight(f64::NAN);
    assert!(nan.primary_mean().unwrap().is_nan());
    assert_eq!(nan.primary_deviation(), Some(0.0));
}

#[test]
fn a_skipped_or_quiet_reading_costs_one_score() {
    for answer in [0.0, -0.0, 1.25] {
        let forest = Scripted {
            scores: vec![answer],
            ..Scripted::raised()
        };
        let verdict = drawer(true).judge(&withdrawal(5), &forest).unwrap();
        match verdict {
            Verdict::Skipped => assert_eq!(answer, 0.0),
            other => assert_eq!(other, Verdict::Quiet { threshold: 1.5 }),
        }
        assert_eq!(forest.calls(), [score(POINT)]);
    }
}

#[test]
fn a_raised_reading_without_an_anomaly_near() {
    let forest = Scripted::raised();
    after_anomaly(false);
    drawer(false).judge(&withdrawal(5), &forest).unwrap();
    assert_eq!(forest.calls(), [score(POINT), attribution(POINT), field()]);
    // Within a shingle of the start the Rust asks for the expected point's attribution as well.
    let forest = Scripted::raised();
    drawer(false).judge(&withdrawal(3), &forest).unwrap();
    assert_eq!(
        forest.calls(),
        [
            score(POINT),
            attribution(POINT),
            field(),
            attribution(EXPECTED)
        ]
    );
}

#[test]
fn the_corrected_score_ends_it() {
    let mut drawer = after_anomaly(true);
    let forest = Scripted {
        scores: vec![1.75, 1.0],
        ..Scripted::raised()
    };
    let verdict = drawer.judge(&withdrawal(7), &forest).unwrap();
    let mode = CorrectionMode::AnomalyInShingle;
    let threshold = 1.5;
    assert_eq!(verdict, Verdict::Corrected { threshold, mode });
    // The expected point of the anomaly, two rows on.
    let corrected = [2.0, 2.0, 2.0, 9.0];
    assert_eq!(forest.calls(), [score(POINT), score(corrected)]);
}

#[test]
fn noise_ends_it() {
    let quiet = Withdrawal {
        rcf_point: &[0.0; 4],
        ..withdrawal(5)
    };
    let forest = Scripted::raised();
    let verdict = drawer(true).judge(&quiet, &forest).unwrap();
    let mode = CorrectionMode::Noise;
    let threshold = 1.5;
    assert_eq!(verdict, Verdict::Corrected { threshold, mode });
    assert_eq!(forest.calls(), [score([0.0; 4])]);
}

#[test]
fn neighbours_end_it() {
    let forest = Scripted {
        neighbours: POINT.to_vec(),
        ..Scripted::raised()
    };
    let verdict = drawer(true).judge(&withdrawal(5), &forest).unwrap();
    let mode = CorrectionMode::ConditionalForecast;
    let threshold = 1.5;
    assert_eq!(verdict, Verdict::Corrected { threshold, mode });
    let neighbours = Call::Neighbours(POINT.to_vec(), 50);
    assert_eq!(
        forest.calls(),
        [score(POINT), attribution(POINT), neighbours]
    );
}

#[test]
fn a_distance_is_asked_for_score_and_attribution() {
    let mut drawer = drawer(true);
    let distance = Withdrawal {
        scoring_strategy: ScoringStrategy::Distance,
        ..withdrawal(1)
    };
    for n in 1..=12 {
        let forest = Scripted {
            scores: vec![1.0 + 0.1 * f64::from(n % 2)],
            ..Scripted::raised()
        };
        let next = Withdrawal {
            values_seen: n as usize,
            ..distance
        };
        drawer.judge(&next, &forest).unwrap();
        assert_eq!(forest.calls(), [Call::Density(POINT.to_vec())]);
    }
    let forest = Scripted::raised();
    let next = Withdrawal {
        values_seen: 13,
        ..distance
    };
    let verdict = drawer.judge(&next, &forest).unwrap();
    assert!(matches!(verdict, Verdict::Raised { .. }), "{verdict:?}");
    let density = || Call::Density(POINT.to_vec());
    let neighbours = Call::Neighbours(POINT.to_vec(), 50);
    assert_eq!(forest.calls(), [density(), density(), neighbours, field()]);
}

/// What the drawer was told, lent in full to a watch.
fn in_full<'a>(w: &Withdrawal<'a>, forest: &'a Scripted, drawer: &'a Drawer) -> Reading<'a> {
    Reading {
        shingle_size: w.shingle_size,
        base_dimension: w.base_dimension,
        scoring_strategy: w.scoring_strategy,
        values_seen: w.values_seen,
        score: forest.scores[0] as f32,
        corrected_score: *forest.scores.last().unwrap() as f32,
        rcf_point: w.rcf_point,
        scale: w.scale,
        shift: w.shift,
        difference_deviations: w.difference_deviations,
        attribution: forest.attributions[0].lent(),
        median: &forest.median,
        expected_attribution: forest.attributions[1].lent(),
        neighbours: &forest.neighbours,
        last_descriptor: drawer.last_descriptor(),
        ..Reading::default()
    }
}

/// Zeros for what the path does not need change neither the verdict nor the state.
#[test]
fn judged_as_if_everything_were_lent() {
    let mut seen = std::collections::BTreeSet::new();
    for (strategy, auto_adjust) in STRATEGIES.into_iter().flat_map(|s| [(s, false), (s, true)]) {
        let mut drawer = drawer(auto_adjust);
        let mut watch = fresh(auto_adjust);
        for n in 1..=400 {
            let random = |k: usize| (n * n * 31 + n * 7 + k * n * 13) % 29;
            let far = if n > 12 { random(1) as f64 / 8.0 } else { 0.0 };
            let zero = f64::from(n % 17 != 0);
            let forest = Scripted {
                scores: vec![zero * (1.0 + far), 1.0 + random(2) as f64 / 10.0],
                neighbours: vec![if random(3) < 6 { 9.0 } else { -99.0 }; 4],
                median: vec![if random(4) < 6 { 9.0 } else { 2.0 }; 4],
                ..Scripted::raised()
            };
            let near = drawer
                .last_anomaly()
                .is_some_and(|a| 2 * n - a.values_seen <= 4);
            let forest = Scripted {
                densities: if near { 2 } else { 1 },
                ..forest
            };
            let point = if random(5) < 4 { [0.0; 4] } else { POINT };
            let w = Withdrawal {
                scoring_strategy: strategy,
                rcf_point: &point,
                ..withdrawal(2 * n)
            };
            let lent = watch.judge(&in_full(&w, &forest, &drawer)).unwrap();
            let verdict = drawer.judge(&w, &forest).unwrap();
            assert_eq!(verdict, lent, "reading {n}");
            assert_eq!(drawer.state_bytes(), watch.state_bytes());
            seen.insert(match verdict {
                Verdict::Corrected { mode, .. } => 10 + mode.code(),
                Verdict::Quiet { .. } => 0,
                Verdict::Raised { .. } => 1,
                Verdict::Skipped => 2,
            });
        }
    }
    // Skipped, quiet, raised, and every mode but drift.
    assert_eq!(seen.len(), 7, "{seen:?}");
}

#[test]
fn what_each_verdict_leaves_behind() {
    let mut drawer = drawer(false);
    let none = drawer.last_descriptor();
    assert_eq!(
        (none.score, none.threshold, drawer.values_seen()),
        (0.0, 0.0, 0)
    );
    drawer.judge(&withdrawal(5), &Scripted::raised()).unwrap();
    let last = drawer.last_descriptor();
    assert_eq!(
        (last.score, last.threshold, drawer.values_seen()),
        (1.75, 1.5, 5)
    );
    let kept = drawer.last_anomaly().cloned().expect("raised");
    assert_eq!((kept.values_seen, kept.score, kept.grade), (5, 1.75, 1.0));
    assert_eq!(kept.anomalous_rcf_point, POINT);
    assert_eq!(kept.expected_rcf_point, EXPECTED);
    assert_eq!(kept.attribution.high, [0.0, 0.0, 0.25, 1.5]);
    let lent = last.last_anomaly.expect("raised");
    assert!(lent.has_attribution);
    let left = |scores: &[f64], drawer: &mut Drawer| {
        let forest = Scripted {
            scores: scores.to_vec(),
            ..Scripted::raised()
        };
        let verdict = drawer.judge(&withdrawal(drawer.values_seen() + 1), &forest);
        let last = drawer.last_descriptor();
        let left = (last.score, last.threshold, drawer.values_seen());
        (verdict.unwrap(), left)
    };
    let (quiet, numbers) = left(&[1.25], &mut drawer);
    assert_eq!(quiet, Verdict::Quiet { threshold: 1.5 });
    assert_eq!(numbers, (1.25, 1.5, 6));
    let (corrected, numbers) = left(&[1.75, 1.0], &mut drawer);
    assert!(matches!(corrected, Verdict::Corrected { .. }));
    assert_eq!(numbers, (1.75, 1.5, 7));
    let (skipped, numbers) = left(&[0.0], &mut drawer);
    assert_eq!(skipped, Verdict::Skipped);
    assert_eq!(numbers, (0.0, 0.0, 8));
    assert_eq!(drawer.last_anomaly(), Some(&kept));
}

#[test]
fn a_refused_reading_or_a_failing_forest_leaves_everything() {
    let mut drawer = after_anomaly(true);
    let before = drawer.to_bytes();
    // Each of them answers something that is refused, or fails at that call.
    for (spoil, about) in asked::spoils() {
        let mut forest = Scripted::raised();
        forest.scores = vec![1.75, 1.75];
        spoil(&mut forest);
        let why = drawer.judge(&withdrawal(7), &forest).unwrap_err();
        assert_eq!(why.to_string(), about);
        assert_eq!(drawer.to_bytes(), before);
    }
    let forest = Scripted::raised();
    let early = drawer.judge(&withdrawal(5), &forest).unwrap_err();
    assert_eq!(forest.calls(), []);
    let said = "refusal 5: values_seen: 5, not later than the last anomaly's 5";
    assert_eq!(early.to_string(), said);
    assert!(matches!(early, NotJudged::Refused(why) if why.refusal() == Refusal::ValuesSeen));
    assert_eq!(drawer.to_bytes(), before);
}

/// A DISTANCE reading of this score, for a watch and for a drawer.
fn distance(values_seen: usize, score: f32) -> (Reading<'static>, Withdrawal<'static>, Scripted) {
    let scoring_strategy = ScoringStrategy::Distance;
    let reading = Reading {
        scoring_strategy,
        values_seen,
        score,
        ..raised()
    };
    let w = Withdrawal {
        scoring_strategy,
        ..withdrawal(values_seen)
    };
    let forest = Scripted {
        scores: vec![f64::from(score)],
        ..Scripted::raised()
    };
    (reading, w, forest)
}

/// The scores 3e38, 1, 1 leave an infinite threshold, which lent as the last descriptor's would be
/// refused for ever. The drawer keeps the score and the last finite threshold, and goes on.
#[test]
fn a_score_that_spoils_the_next_ones() {
    let mut drawer = drawer(false);
    let mut watch = fresh(false);
    let mut last = Verdict::Skipped;
    for (n, score) in [3e38, 1.0, 1.0].into_iter().enumerate() {
        let (reading, w, forest) = distance(n + 1, score);
        last = drawer.judge(&w, &forest).unwrap();
        assert_eq!(watch.judge(&reading).unwrap(), last);
    }
    let threshold = f32::INFINITY;
    assert_eq!(last, Verdict::Quiet { threshold });
    let (mut spoiled, ..) = distance(4, 1.0);
    spoiled.last_descriptor.scoring_strategy = ScoringStrategy::Distance;
    spoiled.last_descriptor.score = 1.0;
    spoiled.last_descriptor.threshold = threshold;
    let why = watch.judge(&spoiled).unwrap_err();
    let said = "refusal 4: last_descriptor.threshold: inf, not a finite number";
    assert_eq!(why.to_string(), said);
    let kept = drawer.last_descriptor();
    assert_eq!((kept.score, kept.threshold), (1.0, 3e38));
    assert_eq!(drawer.values_seen(), 3);
    for n in 4..=500 {
        let (_, w, forest) = distance(n, 1.0);
        let verdict = drawer.judge(&w, &forest).unwrap();
        assert!(matches!(verdict, Verdict::Quiet { .. }));
        assert!(drawer.last_descriptor().threshold.is_finite());
    }
}

/// Under the height strategy an initial threshold of infinity makes every threshold infinite until
/// twenty scores are counted, and then, as 0 times infinity, no number at all.
#[test]
fn an_initial_threshold_that_is_not_finite() {
    for initial in [f32::INFINITY, f32::NEG_INFINITY, f32::NAN] {
        let mut drawer = drawer(false);
        drawer.set_initial_threshold(initial).unwrap();
        let mut kept = 0.0;
        for n in 1..=40 {
            let score = 1.0 + f64::from(n % 2) / 8.0;
            let forest = Scripted {
                scores: vec![score, 1.0],
                ..Scripted::raised()
            };
            let verdict = drawer.judge(&withdrawal(n as usize), &forest).unwrap();
            let threshold = verdict.threshold().expect("counted");
            if initial == f32::INFINITY {
                assert!(if n <= 20 {
                    threshold == initial
                } else {
                    threshold.is_nan()
                });
            }
            if threshold.is_finite() {
                kept = threshold;
            }
            let last = drawer.last_descriptor();
            assert_eq!((last.score, last.threshold), (score as f32, kept));
            assert_eq!(drawer.values_seen(), n as usize);
        }
    }
}

/// The settings reach the watch, and no number that is set makes a panic.
#[test]
fn settings() {
    let mut drawer = drawer(false);
    drawer.set_lower_threshold(2.0).unwrap();
    let verdict = drawer.judge(&withdrawal(5), &Scripted::raised()).unwrap();
    assert_eq!(verdict, Verdict::Quiet { threshold: 2.0 });
    assert!(drawer.set_horizon(1.5).is_err());
    for x in [f32::NAN, f32::INFINITY, -1.0, 0.0, f32::MAX] {
        drawer.set_z_factor(x).unwrap();
        drawer.set_lower_threshold(x).unwrap();
        drawer.set_initial_threshold(x).unwrap();
        for n in 6..40 {
            let forest = Scripted {
                scores: vec![3.0, 2.5],
                ..Scripted::raised()
            };
            drawer.judge(&withdrawal(n * 2), &forest).ok();
        }
    }
}

#[test]
fn a_watch_of_a_drawers_state() {
    let drawer = after_anomaly(true);
    let watch = Watch::of_state_bytes(drawer.state_bytes()).unwrap();
    assert_eq!(watch.state_bytes(), drawer.state_bytes());
}

/// A small generator.
struct Random(u64);

impl Random {
    fn below(&mut self, n: u64) -> u64 {
        self.0 = self
            .0
            .wrapping_mul(6364136223846793005)
            .wrapping_add(1442695040888963407);
        (self.0 >> 33) % n
    }

    fn number(&mut self) -> f64 {
        match self.below(40) {
            0 => f64::NAN,
            1 => f64::INFINITY,
            2 => -1e300,
            3 => 3e38,
            4 => 0.0,
            _ => self.below(400) as f64 / 100.0,
        }
    }

    /// Mostly as many numbers as wanted.
    fn numbers(&mut self, wanted: usize) -> Vec<f64> {
        let n = match self.below(60) {
            0 => 0,
            1 => wanted + 1,
            2 => self.below(3000) as usize,
            _ => wanted,
        };
        (0..n).map(|_| self.number()).collect()
    }

    fn singles(&mut self, wanted: usize) -> Vec<f32> {
        self.numbers(wanted).iter().map(|x| *x as f32).collect()
    }
}

/// A forest that says anything, of lists that are mostly D long.
fn any_forest(random: &mut Random, d: usize) -> Scripted {
    let halves = |random: &mut Random| Attribution {
        high: random.numbers(d),
        low: random.numbers(d),
    };
    Scripted {
        scores: vec![random.number(), random.number()],
        attributions: vec![halves(random), halves(random)],
        neighbours: random.singles(3 * d),
        median: random.singles(d),
        densities: 1 + random.below(2) as usize,
        fails: (random.below(30) == 0).then_some(2),
        ..Scripted::default()
    }
}

/// Whatever a caller or a forest says of a withdrawal of about these sizes: a verdict, or nothing
/// changed.
fn any_withdrawal(random: &mut Random, drawer: &mut Drawer, values_seen: usize, shingle: usize) {
    let (shingle_size, base_dimension) = match random.below(50) {
        0 => (random.below(70) as usize, 2),
        1 => (shingle, random.below(20) as usize),
        2 => (usize::MAX, usize::MAX),
        _ => (shingle, 2),
    };
    let d = shingle_size.min(64) * base_dimension.min(16);
    let forest = any_forest(random, d);
    let (point, row) = (random.singles(d), random.singles(base_dimension.min(16)));
    let w = Withdrawal {
        shingle_size,
        base_dimension,
        scoring_strategy: STRATEGIES[random.below(2) as usize],
        transform_method: METHODS[random.below(6) as usize],
        time_augmented: random.below(2) == 0,
        values_seen,
        rcf_point: &point,
        scale: &row,
        shift: &row,
        difference_deviations: &row,
    };
    let before = drawer.to_bytes();
    if let Err(why) = drawer.judge(&w, &forest) {
        assert!(!why.to_string().is_empty());
        assert_eq!(drawer.to_bytes(), before);
    }
}

#[test]
fn no_input_panics() {
    let mut random = Random(7);
    let mut judged = 0;
    for n in 0..1_000 {
        let mut drawer = Drawer::new(0.01, n % 2 == 0, 2).unwrap();
        let shingle = 1 + random.below(8) as usize;
        for seen in 0..20 {
            any_withdrawal(&mut random, &mut drawer, seen, shingle);
            judged += usize::from(drawer.values_seen() == seen);
        }
        assert!(Drawer::of_bytes(&drawer.to_bytes()).is_ok());
    }
    assert!((2_000..18_000).contains(&judged), "{judged}");
}
