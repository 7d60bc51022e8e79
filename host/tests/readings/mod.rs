//! Readings to change one thing in.

// Each test needs a part of them.
#![allow(dead_code)]

use withdrawal_watch::{LastAnomaly, LastDescriptor, LentAttribution, Reading, Watch};

/// A watch that has seen nothing.
pub fn fresh(auto_adjust: bool) -> Watch {
    Watch::new(0.01, auto_adjust, 1).expect("a sound discount and base")
}

/// A fresh watch raises it: the newest row is 9 where 2 is expected.
pub fn raised() -> Reading<'static> {
    Reading {
        shingle_size: 4,
        base_dimension: 1,
        values_seen: 5,
        score: 1.75,
        corrected_score: 1.75,
        rcf_point: &[2.0, 1.0, 2.0, 9.0],
        scale: &[1.0],
        shift: &[0.5],
        difference_deviations: &[0.25],
        attribution: LentAttribution {
            high: &[0.0, 0.0, 0.5, 3.0],
            low: &[0.0; 4],
        },
        median: &[2.0; 4],
        expected_attribution: LentAttribution {
            high: &[0.0; 4],
            low: &[0.0; 4],
        },
        ..Reading::default()
    }
}

/// A fresh watch leaves it alone.
pub fn quiet() -> Reading<'static> {
    Reading {
        score: 1.25,
        ..raised()
    }
}

/// The last anomaly of `after_anomaly`.
pub fn anomaly() -> LastAnomaly<'static> {
    LastAnomaly {
        relative_index: 0,
        values_seen: 40,
        has_attribution: true,
        score: 1.75,
        expected_rcf_point: &[2.0; 4],
        anomalous_rcf_point: &[2.0, 2.0, 2.0, 9.0],
    }
}

/// A reading with this anomaly behind it.
pub fn with<'a>(last_anomaly: LastAnomaly<'a>, reading: Reading<'a>) -> Reading<'a> {
    Reading {
        last_descriptor: LastDescriptor {
            last_anomaly: Some(last_anomaly),
            ..reading.last_descriptor
        },
        ..reading
    }
}

/// The raised reading with an anomaly two readings back, in the middle of the shingle.
pub fn after_anomaly() -> Reading<'static> {
    let reading = Reading {
        values_seen: 42,
        ..raised()
    };
    with(anomaly(), reading)
}
