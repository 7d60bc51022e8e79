//! The reading that accepted bytes and slices stand for, as the Rust is given it.

use rcflib::common::descriptor::{AnomalyInformation, Descriptor};
use rcflib::common::divector::DiVector;
use rcflib::trcf::types::ScoringStrategy;

use super::making::no_anomaly;
use super::table::{word, ANOMALY, ATTRIBUTION, LAST_SEEN, READING_BASE, SEEN, SHINGLE};
use super::{Reading, METHODS};
use crate::bytes::Bytes;
use crate::chain::Handed;

fn strategy(code: u8) -> ScoringStrategy {
    match code {
        0 => ScoringStrategy::EXPECTED_INVERSE_HEIGHT,
        _ => ScoringStrategy::DISTANCE,
    }
}

/// What the Rust has of the last descriptor.
fn last(h: &Handed) -> Descriptor {
    let anomaly = AnomalyInformation {
        expected_rcf_point: h.points[4].clone(),
        anomalous_rcf_point: h.points[5].clone(),
        relative_index: i32::get(&h.last[10..]),
        values_seen: word(&h.last, LAST_SEEN),
        attribution: (h.last[ATTRIBUTION] == 1).then(|| DiVector::empty(1)),
        score: f32::get(&h.last[19..]),
        ..no_anomaly()
    };
    Descriptor {
        scoring_strategy: strategy(h.last[0]),
        score: f32::get(&h.last[1..]),
        threshold: f32::get(&h.last[5..]),
        last_anomaly: (h.last[ANOMALY] == 1).then_some(anomaly),
        ..Descriptor::default()
    }
}

pub fn reading(h: &Handed) -> Reading {
    let [point, scale, shift, deviations, _, _, median, neighbours] = h.points.clone();
    let [high, low, ideal_high, ideal_low] = h.vectors.clone();
    let neighbours = neighbours.chunks(point.len()).map(<[f32]>::to_vec);
    Reading {
        shingle: word(&h.reading, SHINGLE),
        base: word(&h.reading, READING_BASE),
        strategy: strategy(h.reading[8]),
        method: METHODS[h.reading[9] as usize],
        time_augmented: h.reading[10] == 1,
        values_seen: word(&h.reading, SEEN),
        score: f32::get(&h.reading[15..]),
        corrected_score: f32::get(&h.reading[19..]),
        neighbours: neighbours.collect(),
        point,
        scale,
        shift,
        deviations,
        median,
        attribution: DiVector { high, low },
        expected_attribution: DiVector {
            high: ideal_high,
            low: ideal_low,
        },
        last: last(h),
    }
}
