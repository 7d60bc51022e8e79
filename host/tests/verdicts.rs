//! Each verdict with its numbers, and that each part of a reading reaches the judge.

mod readings;

use readings::{after_anomaly, anomaly, fresh, quiet, raised, with};
use withdrawal_watch::{
    Attribution, CorrectionMode, LastAnomaly, LentAttribution, Reading, ScoringStrategy,
    TransformMethod, Verdict, Watch,
};

/// A far neighbour: it explains nothing.
const FAR: [f32; 4] = [-99.0; 4];

/// What a fresh watch says.
fn verdict(auto_adjust: bool, reading: Reading) -> Verdict {
    fresh(auto_adjust).judge(&reading).expect("accepted")
}

fn corrected(mode: CorrectionMode) -> Verdict {
    Verdict::Corrected {
        threshold: 1.5,
        mode,
    }
}

fn is_raised(verdict: &Verdict) -> bool {
    matches!(verdict, Verdict::Raised { .. })
}

#[test]
fn quiet_below_the_threshold() {
    let mut watch = fresh(true);
    let before = *watch.state_bytes();
    assert_eq!(watch.judge(&quiet()), Ok(Verdict::Quiet { threshold: 1.5 }));
    assert_ne!(watch.state_bytes(), &before);
}

#[test]
fn raised_with_what_was_expected() {
    let mut watch = fresh(false);
    let before = *watch.state_bytes();
    let expected = Verdict::Raised {
        threshold: 1.5,
        grade: 1.0,
        relative_index: 0,
        expected_point: vec![2.0, 1.0, 2.0, 2.0],
        attribution: Attribution {
            high: vec![0.0, 0.0, 0.25, 1.5],
            low: vec![0.0; 4],
        },
    };
    assert_eq!(watch.judge(&raised()), Ok(expected));
    assert_ne!(watch.state_bytes(), &before);
}

#[test]
fn raised_for_an_earlier_row_that_is_low() {
    let reading = Reading {
        rcf_point: &[9.0, 2.0, 9.0, 9.0],
        median: &[9.0; 4],
        attribution: LentAttribution {
            high: &[0.0; 4],
            low: &[0.0, 3.5, 0.0, 0.0],
        },
        ..raised()
    };
    let expected = Verdict::Raised {
        threshold: 1.5,
        grade: 1.0,
        relative_index: -2,
        expected_point: vec![9.0; 4],
        attribution: Attribution {
            high: vec![0.0; 4],
            low: vec![0.0, 1.75, 0.0, 0.0],
        },
    };
    assert_eq!(verdict(false, reading), expected);
}

#[test]
fn skipped_at_score_0() {
    for scoring_strategy in [
        ScoringStrategy::ExpectedInverseHeight,
        ScoringStrategy::Distance,
    ] {
        let mut watch = fresh(true);
        watch.judge(&quiet()).expect("accepted");
        let before = *watch.state_bytes();
        let reading = Reading {
            scoring_strategy,
            score: 0.0,
            ..raised()
        };
        assert_eq!(watch.judge(&reading), Ok(Verdict::Skipped));
        assert_eq!(watch.state_bytes(), &before);
    }
}

#[test]
fn corrected_as_noise() {
    let mut all = [raised(); 3];
    all[0].rcf_point = &[0.0; 4];
    all[1].scale = &[0.0];
    all[2].shift = &[100_000.0];
    for reading in all {
        assert_eq!(verdict(false, reading), corrected(CorrectionMode::Noise));
    }
}

/// A corrected point of zeros is noise; differencing and time add the last anomaly's jump to it.
#[test]
fn corrected_point_of_the_last_anomaly() {
    let zeros = LastAnomaly {
        expected_rcf_point: &[0.0; 4],
        ..anomaly()
    };
    let reading = Reading {
        rcf_point: &[5.0, 5.0, 0.0, 0.0],
        ..after_anomaly()
    };
    let noise = corrected(CorrectionMode::Noise);
    assert_eq!(verdict(false, with(zeros, reading)), noise);
    let differenced = Reading {
        transform_method: TransformMethod::Difference,
        ..reading
    };
    assert_ne!(verdict(false, with(zeros, differenced)), noise);
    let timed = Reading {
        time_augmented: true,
        ..reading
    };
    assert_ne!(verdict(false, with(zeros, timed)), noise);
    let earlier = LastAnomaly {
        relative_index: -1,
        ..zeros
    };
    assert_eq!(verdict(false, with(earlier, differenced)), noise);
}

#[test]
fn corrected_by_the_anomaly_in_the_shingle() {
    let reading = Reading {
        corrected_score: 1.0,
        ..after_anomaly()
    };
    let mode = CorrectionMode::AnomalyInShingle;
    assert_eq!(verdict(false, reading), corrected(mode));
}

/// The attribution of the expected point decides whether the reading triggers anew.
#[test]
fn corrected_where_nothing_triggers() {
    let calm = Reading {
        expected_attribution: after_anomaly().attribution,
        ..after_anomaly()
    };
    let mode = CorrectionMode::AnomalyInShingle;
    assert_eq!(verdict(false, calm), corrected(mode));
    assert!(is_raised(&verdict(false, after_anomaly())));
    let without = LastAnomaly {
        has_attribution: false,
        ..anomaly()
    };
    assert!(is_raised(&verdict(false, with(without, calm))));
    let strong = LastAnomaly {
        score: 99.0,
        ..anomaly()
    };
    assert_eq!(
        verdict(false, with(strong, after_anomaly())),
        corrected(mode)
    );
}

#[test]
fn corrected_by_the_neighbours() {
    let near = [FAR, [2.0, 1.0, 2.0, 9.0]].concat();
    let explained = Reading {
        neighbours: &near,
        ..raised()
    };
    let mode = CorrectionMode::ConditionalForecast;
    assert_eq!(verdict(true, explained), corrected(mode));
    assert!(is_raised(&verdict(false, explained)));
    let unexplained = Reading {
        neighbours: &FAR,
        ..raised()
    };
    assert!(is_raised(&verdict(true, unexplained)));
}

#[test]
fn corrected_by_the_forecast() {
    let mut all = [raised(); 2];
    all[0].median = &[2.0, 2.0, 2.0, 9.0];
    all[1].difference_deviations = &[7.0];
    for reading in all {
        assert_eq!(verdict(false, reading), corrected(CorrectionMode::Forecast));
    }
}

/// After three raised readings at one level it is the drawer's own, if the strategy is the same.
#[test]
fn corrected_as_drift() {
    let mut watch = fresh(true);
    let mut reading = Reading {
        neighbours: &FAR,
        ..raised()
    };
    for _ in 0..3 {
        assert!(is_raised(&watch.judge(&reading).expect("accepted")));
    }
    let drift = corrected(CorrectionMode::DataDrift);
    assert_eq!(watch.clone().judge(&reading), Ok(drift));
    reading.last_descriptor.scoring_strategy = ScoringStrategy::Distance;
    assert!(is_raised(&watch.judge(&reading).expect("accepted")));
}

/// Under DISTANCE the threshold is the mean and `z_factor` deviations, 2.5 where none is set.
#[test]
fn z_factor_moves_the_threshold() {
    for (z, threshold) in [(None, 4.0), (Some(3.0), 4.5), (Some(2.0), 3.5)] {
        let mut watch = Watch::new(0.0, false, 1).expect("a watch");
        if let Some(z) = z {
            watch.set_z_factor(z).expect("set");
        }
        let mut reading = Reading {
            scoring_strategy: ScoringStrategy::Distance,
            ..raised()
        };
        for k in 0..10 {
            reading.score = if k % 2 == 0 { 0.5 } else { 2.5 };
            let verdict = watch.judge(&reading).expect("accepted");
            assert!(matches!(verdict, Verdict::Quiet { .. }), "{verdict:?}");
        }
        reading.score = 1.0;
        assert_eq!(watch.judge(&reading), Ok(Verdict::Quiet { threshold }));
    }
}

#[test]
fn the_other_setters_reach_the_verdict() {
    let mut watch = fresh(false);
    watch.set_initial_threshold(1.25).expect("set");
    let verdict = watch.judge(&raised());
    assert!(matches!(verdict, Ok(Verdict::Raised { threshold, .. }) if threshold == 1.25));
    let mut watch = fresh(false);
    watch.set_lower_threshold(2.0).expect("set");
    assert_eq!(
        watch.judge(&raised()),
        Ok(Verdict::Quiet { threshold: 2.0 })
    );
}

/// Buffers of another dimension leave no trace.
#[test]
fn dimensions_may_change_between_readings() {
    let mut watch = fresh(false);
    let longer = Reading {
        shingle_size: 5,
        rcf_point: &[2.0, 1.0, 2.0, 2.0, 9.0],
        attribution: LentAttribution {
            high: &[0.0, 0.0, 0.0, 0.0, 3.5],
            low: &[0.0; 5],
        },
        median: &[2.0; 5],
        expected_attribution: LentAttribution {
            high: &[0.0; 5],
            low: &[0.0; 5],
        },
        ..raised()
    };
    let first = watch.judge(&longer).expect("accepted");
    assert!(matches!(first, Verdict::Raised { expected_point, .. } if expected_point.len() == 5));
    let second = watch.judge(&raised()).expect("accepted");
    assert!(matches!(second, Verdict::Raised { expected_point, .. }
        if expected_point == [2.0, 1.0, 2.0, 2.0]));
}
