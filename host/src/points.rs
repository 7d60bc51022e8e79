//! Points and parts of points, for a host that makes its readings by itself.

use crate::calls;
use crate::culprit;
use crate::reading::{LastAnomaly, LastDescriptor, LentAttribution, Reading};
use crate::refusal::Refused;

/// The newest row of a shingled point, a part of the caller's own slice. Refused for sizes out of
/// range (2) and a point that is not shingle times base long (3).
///
/// ```
/// use withdrawal_watch::{newest_row, Refused};
///
/// let point = [1.0, 2.0, 3.0, 4.0, 5.0, 6.0];
/// assert_eq!(newest_row(&point, 3, 2)?, &[5.0, 6.0]);
/// let why = newest_row(&point[1..], 3, 2).unwrap_err();
/// assert_eq!(why.to_string(), "refusal 3: rcf_point: 5 numbers, not 6");
/// assert_eq!(newest_row(&point, 0, 2).unwrap_err().number(), 2);
/// # Ok::<(), Refused>(())
/// ```
pub fn newest_row(
    point: &[f32],
    shingle_size: usize,
    base_dimension: usize,
) -> Result<&[f32], Refused> {
    let start = calls::newest_row(point, shingle_size, base_dimension).map_err(|refusal| {
        let blank = Reading::blank(shingle_size, base_dimension);
        let lent = Reading {
            rcf_point: point,
            ..blank
        };
        culprit::of_lists(refusal, &lent)
    })?;
    Ok(&point[start..])
}

/// The point with the effect of the drawer's last anomaly taken out, if there is one: the point that
/// a reading's `corrected_score`, `attribution` and `neighbours` belong to.
///
/// `gap` and `use_difference` are those of [`Watch::asked_of_forest`](crate::Watch::asked_of_forest).
/// Refusals: 2 to 4, and 5 for a gap of 0.
///
/// ```
/// use withdrawal_watch::{apply_basic_corrector, LastAnomaly, Refused};
///
/// let anomaly = LastAnomaly {
///     expected_rcf_point: &[5.0, 6.0, 7.0, 8.0],
///     anomalous_rcf_point: &[5.0, 6.0, 7.0, 18.0],
///     ..LastAnomaly::default()
/// };
/// let point = [1.0, 2.0, 3.0, 4.0];
/// let corrected = |gap| apply_basic_corrector(&point, gap, 4, 1, Some(&anomaly), true, false);
/// assert_eq!(corrected(1)?, [6.0, 7.0, 8.0, 14.0]);
/// assert_eq!(corrected(5)?, point);
/// assert_eq!(corrected(0).unwrap_err().to_string(), "refusal 5: gap: 0, not 1 or more");
/// # Ok::<(), Refused>(())
/// ```
pub fn apply_basic_corrector(
    point: &[f32],
    gap: usize,
    shingle_size: usize,
    base_dimension: usize,
    last_anomaly: Option<&LastAnomaly>,
    use_difference: bool,
    time_augmented: bool,
) -> Result<Vec<f32>, Refused> {
    let blank = Reading::blank(shingle_size, base_dimension);
    let mut out = vec![0.0; blank.dimension()];
    calls::apply_basic_corrector(
        point,
        gap,
        (shingle_size, base_dimension),
        last_anomaly,
        (use_difference, time_augmented),
        &mut out,
    )
    .map_err(|refusal| {
        let lent = Reading {
            rcf_point: point,
            last_descriptor: LastDescriptor {
                last_anomaly: last_anomaly.copied(),
                ..LastDescriptor::default()
            },
            ..blank
        };
        culprit::of_gap(refusal, &lent)
    })?;
    Ok(out)
}

/// What the forest's conditional field is asked for.
#[derive(Clone, Debug, PartialEq, Eq)]
pub struct MissingIndices {
    /// The row that stands out, counted from the oldest.
    pub block: usize,
    /// Where it starts in the point: the `position` of [`expected_point`].
    pub start: usize,
    /// The coordinates of the point to ask for, at most five; none where the field is not asked.
    pub indices: Vec<usize>,
}

/// The coordinates whose values look missing: those that contribute most to the attribution of the
/// corrected point, in the row that stands out since the last anomaly. `gap` is that of
/// [`Watch::asked_of_forest`](crate::Watch::asked_of_forest). Refusals: 2 to 4, and 5 for a gap of 0.
///
/// ```
/// use withdrawal_watch::{likely_missing_indices, LentAttribution, Refused};
///
/// let attribution = LentAttribution { high: &[0.0, 0.0, 0.25, 3.0], low: &[0.0; 4] };
/// let missing = likely_missing_indices(2, 2, 9, attribution)?;
/// assert_eq!((missing.block, missing.start, missing.indices), (1, 2, vec![3]));
/// let why = likely_missing_indices(2, 2, 0, attribution).unwrap_err();
/// assert_eq!(why.to_string(), "refusal 5: gap: 0, not 1 or more");
/// # Ok::<(), Refused>(())
/// ```
pub fn likely_missing_indices(
    shingle_size: usize,
    base_dimension: usize,
    gap: usize,
    attribution: LentAttribution,
) -> Result<MissingIndices, Refused> {
    let sizes = (shingle_size, base_dimension);
    let [block, start, count, indices @ ..] =
        calls::likely_missing_indices(sizes, gap, attribution).map_err(|refusal| {
            let lent = Reading {
                attribution,
                ..Reading::blank(shingle_size, base_dimension)
            };
            culprit::of_gap(refusal, &lent)
        })?;
    Ok(MissingIndices {
        block,
        start,
        indices: indices.into_iter().take(count).collect(),
    })
}

/// The point with the forest's conditional median at the likely missing indices of the row that
/// starts at `position`: the point that a reading's `expected_attribution` belongs to. Refusals:
/// 2 to 4.
///
/// ```
/// use withdrawal_watch::{expected_point, LentAttribution, Refused};
///
/// let attribution = LentAttribution { high: &[0.0, 0.0, 0.5, 3.0], low: &[0.0; 4] };
/// let expected = |at| expected_point(4, 1, at, &[2.0, 1.0, 2.0, 9.0], attribution, &[2.5; 4]);
/// assert_eq!(expected(3)?, [2.0, 1.0, 2.0, 2.5]);
/// assert_eq!(expected(4).unwrap_err().to_string(), "refusal 3: position: 4, not 0 to 3");
/// # Ok::<(), Refused>(())
/// ```
pub fn expected_point(
    shingle_size: usize,
    base_dimension: usize,
    position: usize,
    point: &[f32],
    attribution: LentAttribution,
    median: &[f32],
) -> Result<Vec<f32>, Refused> {
    let blank = Reading::blank(shingle_size, base_dimension);
    let mut out = vec![0.0; blank.dimension()];
    calls::expected_point(
        (shingle_size, base_dimension),
        position,
        point,
        attribution,
        median,
        &mut out,
    )
    .map_err(|refusal| {
        let lent = Reading {
            rcf_point: point,
            attribution,
            median,
            ..blank
        };
        culprit::of_start(refusal, &lent, position)
    })?;
    Ok(out)
}
