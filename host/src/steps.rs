//! The points and places between the forest's calls, each by the library's call on the lists of a
//! reading that was accepted with zeros in place of the forest's answers: its point is as long as the
//! dimension.

use crate::calls;
use crate::forest::AskedOfForest;
use crate::reading::Reading;
use crate::refusal::Refusal;

/// The point with the last anomaly's effect taken out.
pub fn corrected_point(r: &Reading, asked: &AskedOfForest) -> Result<Vec<f32>, Refusal> {
    let mut out = vec![0.0; r.rcf_point.len()];
    calls::apply_basic_corrector(
        r.rcf_point,
        asked.gap,
        (r.shingle_size, r.base_dimension),
        r.last_descriptor.last_anomaly.as_ref(),
        (asked.use_difference, r.time_augmented),
        &mut out,
    )?;
    Ok(out)
}

/// The coordinates that the forest's conditional field is asked for.
pub struct Missing {
    /// Where the row starts that stands out.
    pub start: usize,
    /// Its coordinates that contribute most; none where the field is not asked.
    pub indices: Vec<usize>,
}

/// The same of the reading's attribution, `gap` readings after the last anomaly.
pub fn likely_missing_indices(r: &Reading, gap: usize) -> Result<Missing, Refusal> {
    let sizes = (r.shingle_size, r.base_dimension);
    let [_, start, count, indices @ ..] = calls::likely_missing_indices(sizes, gap, r.attribution)?;
    Ok(Missing {
        start,
        indices: indices.into_iter().take(count).collect(),
    })
}

/// The point with the conditional median at the missing indices of the row from `start` on.
pub fn expected_point(r: &Reading, start: usize) -> Result<Vec<f32>, Refusal> {
    let mut out = vec![0.0; r.rcf_point.len()];
    calls::expected_point(
        (r.shingle_size, r.base_dimension),
        start,
        r.rcf_point,
        r.attribution,
        r.median,
        &mut out,
    )?;
    Ok(out)
}
