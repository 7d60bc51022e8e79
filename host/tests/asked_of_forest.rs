//! What a reading asks of the forest past its opening grade: at the edges, and refused.

mod readings;

use readings::{after_anomaly, fresh, raised};
use withdrawal_watch::{AskedOfForest, Reading, TransformMethod};

/// The last anomaly is the drawer's 40th reading, and the shingle size 4.
#[test]
fn around_a_shingle_after_an_anomaly() {
    for gap in 1..=6 {
        let reading = Reading {
            values_seen: 40 + gap,
            ..after_anomaly()
        };
        let wanted = AskedOfForest {
            gap,
            corrected_score: gap <= 4,
            new_attribution: gap < 4,
            ..AskedOfForest::default()
        };
        assert_eq!(fresh(false).asked_of_forest(&reading), Ok(wanted));
    }
}

/// Where there is no anomaly, the gap is counted from the start.
#[test]
fn without_an_anomaly() {
    for values_seen in [1, 3, 4, 5, 16_777_216] {
        let reading = Reading {
            values_seen,
            ..raised()
        };
        let wanted = AskedOfForest {
            gap: values_seen,
            near_neighbor_list: true,
            new_attribution: values_seen < 4,
            ..AskedOfForest::default()
        };
        assert_eq!(fresh(true).asked_of_forest(&reading), Ok(wanted));
    }
}

#[test]
fn two_methods_difference() {
    let differences = |transform_method| {
        let reading = Reading {
            transform_method,
            ..raised()
        };
        let asked = fresh(true).asked_of_forest(&reading);
        asked.expect("a sound reading").use_difference
    };
    assert!(differences(TransformMethod::Difference));
    assert!(differences(TransformMethod::NormalizeDifference));
    assert!(!differences(TransformMethod::None));
    assert!(!differences(TransformMethod::Weighted));
    assert!(!differences(TransformMethod::SubtractMa));
    assert!(!differences(TransformMethod::Normalize));
}

/// No list is looked at.
#[test]
fn lists_of_any_length() {
    let reading = Reading {
        rcf_point: &[f32::NAN],
        neighbours: &[1.0; 3],
        ..raised()
    };
    assert!(fresh(true).asked_of_forest(&reading).is_ok());
}

#[test]
fn refusals_name_their_culprit() {
    let said = |change: fn(&mut Reading<'static>)| {
        let mut reading = after_anomaly();
        change(&mut reading);
        let why = fresh(true).asked_of_forest(&reading);
        why.expect_err("a refused reading").to_string()
    };
    assert_eq!(
        said(|r| (r.shingle_size, r.score) = (65, f32::NAN)),
        "refusal 2: shingle_size: 65, not 1 to 64"
    );
    assert_eq!(
        said(|r| (r.score, r.values_seen) = (f32::NAN, 0)),
        "refusal 4: score: NaN, not a finite number"
    );
    assert_eq!(
        said(|r| r.values_seen = 40),
        "refusal 5: values_seen: 40, not later than the last anomaly's 40"
    );
}
