//! Readings, verdicts and what a statistic says, as the C interface has them: little-endian, without gaps.

use crate::reading::{LastDescriptor, Reading};

pub const READING: usize = 23;
pub const LAST: usize = 23;
pub const VERDICT: usize = 14;
pub const MEASURED: usize = 9;

/// A size in four bytes. One that does not fit becomes the largest, which is refused like it.
fn size(n: usize) -> [u8; 4] {
    u32::try_from(n).unwrap_or(u32::MAX).to_le_bytes()
}

fn put<const N: usize>(out: &mut [u8], at: usize, bytes: [u8; N]) {
    out[at..at + N].copy_from_slice(&bytes);
}

pub fn take<const N: usize>(bytes: &[u8], at: usize) -> [u8; N] {
    std::array::from_fn(|k| bytes[at + k])
}

pub fn reading(r: &Reading) -> [u8; READING] {
    let mut out = [0; READING];
    put(&mut out, 0, size(r.shingle_size));
    put(&mut out, 4, size(r.base_dimension));
    out[8] = r.scoring_strategy.code();
    out[9] = r.transform_method.code();
    out[10] = r.time_augmented.into();
    put(&mut out, 11, size(r.values_seen));
    put(&mut out, 15, r.score.to_le_bytes());
    put(&mut out, 19, r.corrected_score.to_le_bytes());
    out
}

pub fn last(l: &LastDescriptor) -> [u8; LAST] {
    let mut out = [0; LAST];
    out[0] = l.scoring_strategy.code();
    put(&mut out, 1, l.score.to_le_bytes());
    put(&mut out, 5, l.threshold.to_le_bytes());
    if let Some(anomaly) = &l.last_anomaly {
        out[9] = 1;
        put(&mut out, 10, anomaly.relative_index.to_le_bytes());
        put(&mut out, 14, size(anomaly.values_seen));
        out[18] = anomaly.has_attribution.into();
        put(&mut out, 19, anomaly.score.to_le_bytes());
    }
    out
}

/// A verdict's parts.
pub struct Said {
    pub kind: u8,
    pub mode: u8,
    pub threshold: f32,
    pub grade: f32,
    pub relative_index: i32,
}

pub fn said(verdict: &[u8; VERDICT]) -> Said {
    Said {
        kind: verdict[0],
        mode: verdict[1],
        threshold: f32::from_le_bytes(take(verdict, 2)),
        grade: f32::from_le_bytes(take(verdict, 6)),
        relative_index: i32::from_le_bytes(take(verdict, 10)),
    }
}

/// A statistic's number; behind a no there is none.
pub fn measured(out: &[u8; MEASURED]) -> Option<f64> {
    (out[0] == 1).then(|| f64::from_le_bytes(take(out, 1)))
}

#[cfg(test)]
mod tests {
    use super::*;
    use crate::reading::LastAnomaly;
    use crate::records::{POOL_BYTES, POOL_RECORDS};
    use crate::state::{STATE_BYTES, STATISTIC_BYTES, THRESHOLDER_BYTES};
    use crate::types::{ScoringStrategy, TransformMethod};

    #[test]
    fn a_reading_field_by_field() {
        let made = reading(&Reading {
            shingle_size: 0x0102,
            base_dimension: 0x0304,
            scoring_strategy: ScoringStrategy::Distance,
            transform_method: TransformMethod::NormalizeDifference,
            time_augmented: true,
            values_seen: 0x05060708,
            score: 1.0,
            corrected_score: 2.0,
            ..Reading::default()
        });
        let (sizes, rest) = made.split_at(8);
        assert_eq!(sizes, [2, 1, 0, 0, 4, 3, 0, 0]);
        assert_eq!(rest[..3], [1, 5, 1]);
        assert_eq!(rest[3..7], [8, 7, 6, 5]);
        assert_eq!(rest[7..], [0, 0, 0x80, 0x3f, 0, 0, 0, 0x40]);
    }

    #[test]
    fn a_last_descriptor_field_by_field() {
        let mut descriptor = LastDescriptor {
            scoring_strategy: ScoringStrategy::Distance,
            score: 1.0,
            threshold: 2.0,
            last_anomaly: None,
        };
        let start = [1, 0, 0, 0x80, 0x3f, 0, 0, 0, 0x40];
        let made = last(&descriptor);
        assert_eq!(made[..9], start);
        assert_eq!(made[9..], [0; 14]);
        descriptor.last_anomaly = Some(LastAnomaly {
            relative_index: -2,
            values_seen: 0x01020304,
            has_attribution: true,
            score: -2.0,
            ..LastAnomaly::default()
        });
        let made = last(&descriptor);
        assert_eq!(made[..9], start);
        assert_eq!(made[9..14], [1, 0xfe, 0xff, 0xff, 0xff]);
        assert_eq!(made[14..], [4, 3, 2, 1, 1, 0, 0, 0, 0xc0]);
    }

    /// The header for C names the same lengths.
    #[test]
    fn lengths_in_the_header() {
        let header = include_str!("../include/withdrawal_watch.h");
        for (name, length) in [
            ("STATISTIC_BYTES", STATISTIC_BYTES),
            ("THRESHOLDER_BYTES", THRESHOLDER_BYTES),
            ("STATE_BYTES", STATE_BYTES),
            ("READING_BYTES", READING),
            ("LAST_BYTES", LAST),
            ("VERDICT_BYTES", VERDICT),
            ("MEASURED_BYTES", MEASURED),
            ("POOL_BYTES", POOL_BYTES),
            ("POOL_RECORDS", POOL_RECORDS),
        ] {
            let line = format!("\n#define KRCF_{name} {length}\n");
            assert!(header.contains(&line), "{line}");
        }
    }

    #[test]
    fn a_size_beyond_four_bytes_is_the_largest() {
        assert_eq!(size(usize::MAX), [0xff; 4]);
        assert_eq!(size(u32::MAX as usize), [0xff; 4]);
    }

    #[test]
    fn a_number_behind_a_yes_only() {
        let yes = [1, 0, 0, 0, 0, 0, 0, 0xf8, 0x3f];
        assert_eq!(measured(&yes), Some(1.5));
        assert_eq!(measured(&[1, 0, 0, 0, 0, 0, 0, 0, 0]), Some(0.0));
        assert_eq!(measured(&[0, 0, 0, 0, 0, 0, 0, 0xf8, 0x3f]), None);
    }

    #[test]
    fn a_verdict_field_by_field() {
        let made = said(&[
            2, 6, 0, 0, 0x80, 0x3f, 0, 0, 0, 0x40, 0xfe, 0xff, 0xff, 0xff,
        ]);
        assert_eq!((made.kind, made.mode), (2, 6));
        assert_eq!((made.threshold, made.grade), (1.0, 2.0));
        assert_eq!(made.relative_index, -2);
    }
}
