//! Every refusal that a watch can give, and that nothing is changed by it.

mod readings;

use readings::{after_anomaly, anomaly, fresh, quiet, raised, with};
use withdrawal_watch::{
    LastAnomaly, LastDescriptor, LentAttribution, Reading, Refusal, ScoringStrategy, Watch,
};

/// A watch with some readings behind it refuses this one by `why`, keeps its state, and judges on
/// as one that never saw it.
fn refused(why: Refusal, reading: Reading) {
    for auto_adjust in [false, true] {
        let mut watch = fresh(auto_adjust);
        for before in [quiet(), raised(), quiet()] {
            watch.judge(&before).expect("accepted");
        }
        let mut other = watch.clone();
        assert_eq!(watch.judge(&reading).unwrap_err().refusal(), why);
        assert_eq!(watch.state_bytes(), other.state_bytes());
        let verdict = watch.judge(&raised());
        assert!(verdict.is_ok());
        assert_eq!(verdict, other.judge(&raised()));
        assert_eq!(watch.state_bytes(), other.state_bytes());
    }
}

#[test]
fn the_unchanged_reading_is_accepted() {
    assert!(fresh(false).judge(&after_anomaly()).is_ok());
}

#[test]
fn discount_1() {
    for discount in [1.0, -0.5, f64::NAN, f64::INFINITY] {
        let made = Watch::new(discount, false, 1);
        assert_eq!(made.unwrap_err().refusal(), Refusal::Discount);
    }
    assert!(Watch::new(0.0, false, 1).is_ok());
}

#[test]
fn range_2() {
    for base in [0, 17, usize::MAX] {
        let why = Watch::new(0.01, true, base).unwrap_err();
        assert_eq!(why.refusal(), Refusal::Range);
    }
    for shingle_size in [0, 65, (1 << 32) + 4, usize::MAX] {
        let reading = Reading {
            shingle_size,
            ..after_anomaly()
        };
        refused(Refusal::Range, reading);
    }
    for base_dimension in [0, 2, 17, (1 << 32) + 1] {
        let reading = Reading {
            base_dimension,
            ..after_anomaly()
        };
        refused(Refusal::Range, reading);
    }
}

/// A reading for each lent slice, with `narrow` or `wide` in its place.
fn with_slice<'a>(narrow: &'a [f32], wide: &'a [f64]) -> Vec<Reading<'a>> {
    let mut all = vec![after_anomaly(); 10];
    all[0].rcf_point = narrow;
    all[1].scale = narrow;
    all[2].shift = narrow;
    all[3].difference_deviations = narrow;
    all[4].attribution.high = wide;
    all[5].attribution.low = wide;
    all[6].median = narrow;
    all[7].expected_attribution.high = wide;
    all[8].expected_attribution.low = wide;
    all[9].neighbours = narrow;
    let expected = LastAnomaly {
        expected_rcf_point: narrow,
        ..anomaly()
    };
    let anomalous = LastAnomaly {
        anomalous_rcf_point: narrow,
        ..anomaly()
    };
    all.extend([
        with(expected, after_anomaly()),
        with(anomalous, after_anomaly()),
    ]);
    all
}

#[test]
fn length_3() {
    for n in [2, 3, 5] {
        for reading in with_slice(&vec![2.0; n], &vec![2.0; n]) {
            refused(Refusal::Length, reading);
        }
    }
    let many = Reading {
        neighbours: &[2.0; 257 * 4],
        ..after_anomaly()
    };
    refused(Refusal::Length, many);
    let shorter = Reading {
        shingle_size: 3,
        ..after_anomaly()
    };
    refused(Refusal::Length, shorter);
}

/// Readings with `x` for each of the numbers that come without a slice.
fn with_number(x: f32) -> Vec<Reading<'static>> {
    let mut all = vec![after_anomaly(); 4];
    all[0].score = x;
    all[1].corrected_score = x;
    all[2].last_descriptor.score = x;
    all[3].last_descriptor.threshold = x;
    let score = LastAnomaly {
        score: x,
        ..anomaly()
    };
    all.push(with(score, after_anomaly()));
    all
}

#[test]
fn not_finite_4() {
    for x in [f32::NAN, f32::INFINITY, f32::NEG_INFINITY] {
        for reading in with_number(x) {
            refused(Refusal::NotFinite, reading);
        }
        // A row is 1 long, everything else 4.
        let wide = [0.0, 0.0, 0.0, x.into()];
        for (k, reading) in with_slice(&[2.0, 2.0, 2.0, x], &wide).iter().enumerate() {
            if !(1..4).contains(&k) {
                refused(Refusal::NotFinite, *reading);
            }
        }
        for reading in &with_slice(&[x], &wide)[1..4] {
            refused(Refusal::NotFinite, *reading);
        }
    }
}

#[test]
fn values_seen_5() {
    for values_seen in [0, 40, 16_777_217, (1 << 32) + 42, usize::MAX] {
        let reading = Reading {
            values_seen,
            ..after_anomaly()
        };
        refused(Refusal::ValuesSeen, reading);
    }
    for values_seen in [42, 43, 1 << 32, usize::MAX] {
        let later = LastAnomaly {
            values_seen,
            ..anomaly()
        };
        refused(Refusal::ValuesSeen, with(later, after_anomaly()));
    }
}

/// The counts are full after 16,777,216 readings.
#[test]
fn count_6() {
    let mut watch = Watch::new(0.0, false, 1).expect("a watch");
    let none = LentAttribution {
        high: &[0.0],
        low: &[0.0],
    };
    let mut reading = Reading {
        shingle_size: 1,
        scoring_strategy: ScoringStrategy::Distance,
        score: 1.0,
        rcf_point: &[2.0],
        attribution: none,
        median: &[2.0],
        expected_attribution: none,
        ..raised()
    };
    for seen in 1..=16_777_216 {
        reading.values_seen = seen;
        assert!(watch.judge(&reading).is_ok(), "reading {seen}");
    }
    let before = *watch.state_bytes();
    let why = watch.judge(&reading).unwrap_err();
    assert_eq!(
        why.to_string(),
        "refusal 6: count of the scores: 16,777,216, not 0 to 16,777,215"
    );
    assert_eq!(watch.state_bytes(), &before);
}

#[test]
fn horizon_7() {
    let mut watch = fresh(true);
    let before = *watch.state_bytes();
    for horizon in [1.5, -0.5, f32::NAN, f32::INFINITY] {
        let why = watch.set_horizon(horizon).unwrap_err();
        assert_eq!(why.refusal(), Refusal::Horizon);
        assert_eq!(watch.state_bytes(), &before);
    }
    assert_eq!(watch.set_horizon(1.0), Ok(()));
    assert_ne!(watch.state_bytes(), &before);
}

/// Of several reasons the smallest number is given.
#[test]
fn smallest_number_first() {
    let mut reading = after_anomaly();
    reading.values_seen = 0;
    refused(Refusal::ValuesSeen, reading);
    reading.score = f32::NAN;
    refused(Refusal::NotFinite, reading);
    reading.median = &[];
    refused(Refusal::Length, reading);
    reading.shingle_size = 65;
    refused(Refusal::Range, reading);
}

/// Behind a missing anomaly nothing is looked at.
#[test]
fn no_anomaly_is_no_reason() {
    let reading = Reading {
        last_descriptor: LastDescriptor::default(),
        ..after_anomaly()
    };
    assert!(fresh(false).judge(&reading).is_ok());
}
