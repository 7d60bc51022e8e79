//! Every refusal of a reading says which list, length or number it was about.

mod readings;

use readings::{after_anomaly, anomaly, fresh, with};
use withdrawal_watch::{LastAnomaly, Reading};

/// A reading that one thing is wrong with, and what is said of it.
type Case = (Reading<'static>, &'static str);

fn spoiled(change: impl FnOnce(&mut Reading<'static>)) -> Reading<'static> {
    let mut reading = after_anomaly();
    change(&mut reading);
    reading
}

fn sizes() -> Vec<Case> {
    vec![
        (
            spoiled(|r| r.shingle_size = 65),
            "refusal 2: shingle_size: 65, not 1 to 64",
        ),
        (
            spoiled(|r| r.shingle_size = 0),
            "refusal 2: shingle_size: 0, not 1 to 64",
        ),
        (
            spoiled(|r| r.base_dimension = 17),
            "refusal 2: base_dimension: 17, not 1 to 16",
        ),
        (
            spoiled(|r| r.base_dimension = 2),
            "refusal 2: base_dimension: 2, where the watch has 1",
        ),
    ]
}

fn lengths() -> Vec<Case> {
    vec![
        (
            spoiled(|r| r.rcf_point = &[1.0; 5]),
            "refusal 3: rcf_point: 5 numbers, not 4",
        ),
        (
            spoiled(|r| r.scale = &[]),
            "refusal 3: scale: 0 numbers, not 1",
        ),
        (
            spoiled(|r| r.shift = &[1.0; 2]),
            "refusal 3: shift: 2 numbers, not 1",
        ),
        (
            spoiled(|r| r.difference_deviations = &[1.0; 4]),
            "refusal 3: difference_deviations: 4 numbers, not 1",
        ),
        (
            spoiled(|r| r.median = &[1.0; 1]),
            "refusal 3: median: 1 number, not 4",
        ),
        (
            spoiled(|r| r.attribution.low = &[1.0; 3]),
            "refusal 3: attribution.low: 3 numbers, not 4",
        ),
        (
            spoiled(|r| r.expected_attribution.high = &[1.0; 3]),
            "refusal 3: expected_attribution.high: 3 numbers, not 4",
        ),
        (
            spoiled(|r| {
                r.shingle_size = 8;
                r.rcf_point = &[1.0; 8];
                r.median = &[1.0; 8];
                r.attribution.high = &[1.0; 8];
                r.attribution.low = &[1.0; 8];
                r.expected_attribution = r.attribution;
                r.last_descriptor.last_anomaly = None;
                r.neighbours = &[1.0; 1023];
            }),
            "refusal 3: neighbours: 1,023 numbers, not a multiple of 8",
        ),
        (
            spoiled(|r| r.neighbours = &[1.0; 4 * 300]),
            "refusal 3: neighbours: 300 points, more than 256",
        ),
        (
            with(
                LastAnomaly {
                    expected_rcf_point: &[1.0; 3],
                    ..anomaly()
                },
                after_anomaly(),
            ),
            "refusal 3: last_anomaly.expected_rcf_point: 3 numbers, not 4",
        ),
    ]
}

fn numbers() -> Vec<Case> {
    vec![
        (
            spoiled(|r| r.score = f32::NAN),
            "refusal 4: score: NaN, not a finite number",
        ),
        (
            spoiled(|r| r.corrected_score = f32::INFINITY),
            "refusal 4: corrected_score: inf, not a finite number",
        ),
        (
            spoiled(|r| r.last_descriptor.score = f32::NEG_INFINITY),
            "refusal 4: last_descriptor.score: -inf, not a finite number",
        ),
        (
            spoiled(|r| r.rcf_point = &[1.0, 1.0, f32::NAN, 1.0]),
            "refusal 4: rcf_point[2]: NaN, not a finite number",
        ),
        (
            spoiled(|r| r.attribution.high = &[1.0, f64::INFINITY, 1.0, 1.0]),
            "refusal 4: attribution.high[1]: inf, not a finite number",
        ),
        (
            with(
                LastAnomaly {
                    score: f32::NAN,
                    ..anomaly()
                },
                after_anomaly(),
            ),
            "refusal 4: last_anomaly.score: NaN, not a finite number",
        ),
        (
            spoiled(|r| r.values_seen = 0),
            "refusal 5: values_seen: 0, not 1 to 16,777,216",
        ),
        (
            spoiled(|r| r.values_seen = 20_000_000),
            "refusal 5: values_seen: 20,000,000, not 1 to 16,777,216",
        ),
        (
            spoiled(|r| r.values_seen = 39),
            "refusal 5: values_seen: 39, not later than the last anomaly's 40",
        ),
    ]
}

#[test]
fn each_refusal_names_its_culprit() {
    for (reading, said) in sizes().into_iter().chain(lengths()).chain(numbers()) {
        let why = fresh(true).judge(&reading).unwrap_err();
        assert_eq!(why.to_string(), said);
    }
}

/// Of several the one with the smallest number is named.
#[test]
fn the_smallest_number_is_named() {
    let both = spoiled(|r| {
        r.score = f32::NAN;
        r.scale = &[];
    });
    let why = fresh(true).judge(&both).unwrap_err();
    assert_eq!(why.about(), "scale: 0 numbers, not 1");
}
