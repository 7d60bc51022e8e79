//! The calls over C, and the only unsafe code. A slice is passed as its start and its length, so
//! it is enough that each is borrowed for the whole call: none that is written overlaps another.

use crate::bytes::{self, MEASURED};
use crate::declarations as c;
use crate::forest::AskedOfForest;
use crate::reading::{LastAnomaly, LentAttribution, Reading};
use crate::refusal::Refusal;
use crate::state::{STATE_BYTES, STATISTIC_BYTES, THRESHOLDER_BYTES};
use crate::types::ScoringStrategy;

/// What a judgment writes: the first three for a raised reading only.
pub struct Buffers<'a> {
    pub expected: &'a mut [f32],
    pub high: &'a mut [f64],
    pub low: &'a mut [f64],
    pub verdict: &'a mut [u8],
}

pub fn new(
    discount: f64,
    auto_adjust: bool,
    base_dimension: usize,
    out: &mut [u8],
) -> Result<(), Refusal> {
    let adjust = auto_adjust.into();
    // SAFETY: `out` is borrowed alone, and its own length is passed.
    let number = unsafe {
        c::krcf_new(
            discount,
            adjust,
            base_dimension,
            out.as_mut_ptr(),
            out.len(),
        )
    };
    Refusal::answered(number)
}

/// Safe functions over setters of a lent slice, which may take something before the value.
macro_rules! setters {
    ($($name:ident = $function:ident($($first:ident: $type:ty)?);)*) => {$(
        pub fn $name(lent: &mut [u8], $($first: $type,)? value: f32) -> Result<(), Refusal> {
            // SAFETY: `lent` is borrowed alone, and its own length is passed.
            let number = unsafe { c::$function(lent.as_mut_ptr(), lent.len(), $($first,)? value) };
            Refusal::answered(number)
        }
    )*};
}

setters! {
    set_z_factor = krcf_chain_set_z_factor();
    set_lower_threshold = krcf_chain_set_lower_threshold();
    set_initial_threshold = krcf_chain_set_initial_threshold();
    set_horizon = krcf_chain_set_horizon();
}

/// A safe function over one of the numbers that a statistic has; none of an empty one. The lengths are
/// right by their types, so it is never refused.
macro_rules! measures {
    ($($name:ident = $function:ident;)*) => {$(
        pub fn $name(statistic: &[u8; STATISTIC_BYTES]) -> Option<f64> {
            let (start, len) = (statistic.as_ptr(), statistic.len());
            let mut out = [0; MEASURED];
            // SAFETY: `statistic` is borrowed for reading, `out` alone, and each goes with its own length.
            let number = unsafe { c::$function(start, len, out.as_mut_ptr(), out.len()) };
            Refusal::answered(number).expect("lengths that the library has");
            bytes::measured(&out)
        }
    )*};
}

measures! {
    mean = krcf_deviation_mean;
    deviation = krcf_deviation_deviation;
}

/// A call with a slice to change, a number or none, slices to read and slices to write.
macro_rules! with_slices {
    ($function:path, $lent:expr, [$($first:expr)?], [$($read:expr),*], [$($write:expr),*]) => {
        $function(
            $lent.as_mut_ptr(), $lent.len(),
            $($first,)?
            $($read.as_ptr(), $read.len(),)*
            $($write.as_mut_ptr(), $write.len()),*
        )
    };
}

/// A judgment by a C function: the slice to change, what comes right behind it, then the reading's
/// slices and those that are written.
macro_rules! judgment {
    ($function:ident, $lent:expr, [$($first:expr)?], $reading:expr, $out:expr) => {{
        let (r, out): (&Reading, Buffers) = ($reading, $out);
        let reading = bytes::reading(r);
        let last = bytes::last(&r.last_descriptor);
        let anomaly = r.last_descriptor.last_anomaly.unwrap_or_default();
        // SAFETY: the slice to change and each of `out` are borrowed alone, all others for reading,
        // and each goes with its own length.
        let number = unsafe {
            with_slices!(
                c::$function,
                $lent,
                [$($first)?],
                [
                    reading,
                    last,
                    r.rcf_point,
                    r.scale,
                    r.shift,
                    r.difference_deviations,
                    anomaly.expected_rcf_point,
                    anomaly.anomalous_rcf_point,
                    r.attribution.high,
                    r.attribution.low,
                    r.median,
                    r.expected_attribution.high,
                    r.expected_attribution.low,
                    r.neighbours
                ],
                [out.expected, out.high, out.low, out.verdict]
            )
        };
        Refusal::answered(number)
    }};
}

pub mod pool;

pub fn judge(state: &mut [u8], reading: &Reading, out: Buffers) -> Result<(), Refusal> {
    judgment!(krcf_detect_and_modify, state, [], reading, out)
}

pub fn newest_row(
    point: &[f32],
    shingle_size: usize,
    base_dimension: usize,
) -> Result<usize, Refusal> {
    let mut start = [0; 8];
    // SAFETY: `point` is borrowed for reading, `start` alone, and each goes with its own length.
    let number = unsafe {
        c::krcf_newest_row(
            point.as_ptr(),
            point.len(),
            shingle_size,
            base_dimension,
            start.as_mut_ptr(),
            start.len(),
        )
    };
    Refusal::answered(number)?;
    Ok(u64::from_le_bytes(start) as usize)
}

/// What the Rust writes `as f32` of an f64.
pub fn narrow(x: f64) -> f32 {
    c::krcf_narrow(x)
}

pub fn total(high: &[f64], low: &[f64]) -> Result<f64, Refusal> {
    let mut out = [0; 8];
    // SAFETY: `high` and `low` are borrowed for reading, `out` alone, each goes with its own length.
    let number = unsafe {
        c::krcf_total(
            high.as_ptr(),
            high.len(),
            low.as_ptr(),
            low.len(),
            out.as_mut_ptr(),
            out.len(),
        )
    };
    Refusal::answered(number)?;
    Ok(f64::from_le_bytes(out))
}

/// The grade of the reading's corrected score against the state.
pub fn corrected_grade(state: &[u8; STATE_BYTES], r: &Reading) -> Result<f32, Refusal> {
    let thresholder = &state[..THRESHOLDER_BYTES];
    let (start, len) = (thresholder.as_ptr(), thresholder.len());
    let score = r.corrected_score;
    let mut out = [0; 8];
    // SAFETY: `thresholder` is borrowed for reading, `out` alone, and each goes with its own length.
    let number = unsafe {
        let (answer, room) = (out.as_mut_ptr(), out.len());
        match r.scoring_strategy {
            ScoringStrategy::ExpectedInverseHeight => c::krcf_threshold_and_grade(
                start,
                len,
                score,
                r.transform_method.code(),
                r.shingle_size,
                answer,
                room,
            ),
            ScoringStrategy::Distance => {
                c::krcf_primary_threshold_and_grade(start, len, score, answer, room)
            }
        }
    };
    Refusal::answered(number)?;
    Ok(f32::from_le_bytes(bytes::take(&out, 4)))
}

/// What the reading asks of the forest past its opening grade.
pub fn asked_of_forest(state: &[u8; STATE_BYTES], r: &Reading) -> Result<AskedOfForest, Refusal> {
    let reading = bytes::reading(r);
    let last = bytes::last(&r.last_descriptor);
    let mut out = [0; 5];
    // SAFETY: `out` is borrowed alone, the others for reading, and each goes with its own length.
    let number = unsafe {
        c::krcf_asked_of_forest(
            state.as_ptr(),
            state.len(),
            reading.as_ptr(),
            reading.len(),
            last.as_ptr(),
            last.len(),
            out.as_mut_ptr(),
            out.len(),
        )
    };
    Refusal::answered(number)?;
    let [gap, yes_no @ ..] = out;
    let [corrected_score, near_neighbor_list, new_attribution, use_difference] =
        yes_no.map(|n| n == 1);
    Ok(AskedOfForest {
        gap,
        corrected_score,
        near_neighbor_list,
        new_attribution,
        use_difference,
    })
}

/// Shingle size and base dimension.
type Sizes = (usize, usize);

pub fn apply_basic_corrector(
    point: &[f32],
    gap: usize,
    (shingle_size, base_dimension): Sizes,
    last_anomaly: Option<&LastAnomaly>,
    (use_difference, time_augmented): (bool, bool),
    out: &mut [f32],
) -> Result<(), Refusal> {
    let anomaly = last_anomaly.copied().unwrap_or_default();
    let (expected, anomalous) = (anomaly.expected_rcf_point, anomaly.anomalous_rcf_point);
    // SAFETY: `out` is borrowed alone, all others for reading, and each goes with its own length.
    let number = unsafe {
        c::krcf_apply_basic_corrector(
            point.as_ptr(),
            point.len(),
            gap,
            shingle_size,
            base_dimension,
            last_anomaly.is_some().into(),
            expected.as_ptr(),
            expected.len(),
            anomalous.as_ptr(),
            anomalous.len(),
            anomaly.relative_index,
            use_difference.into(),
            time_augmented.into(),
            out.as_mut_ptr(),
            out.len(),
        )
    };
    Refusal::answered(number)
}

pub fn expected_point(
    (shingle_size, base_dimension): Sizes,
    position: usize,
    point: &[f32],
    attribution: LentAttribution,
    median: &[f32],
    out: &mut [f32],
) -> Result<(), Refusal> {
    // SAFETY: `out` is borrowed alone, all others for reading, and each goes with its own length.
    let number = unsafe {
        c::krcf_expected_point(
            shingle_size,
            base_dimension,
            position,
            point.as_ptr(),
            point.len(),
            attribution.high.as_ptr(),
            attribution.high.len(),
            attribution.low.as_ptr(),
            attribution.low.len(),
            median.as_ptr(),
            median.len(),
            out.as_mut_ptr(),
            out.len(),
        )
    };
    Refusal::answered(number)
}

pub fn update_auto_adjust(
    state: &mut [u8],
    shingle_size: usize,
    point: &[f32],
) -> Result<(), Refusal> {
    // SAFETY: `state` is borrowed alone, `point` for reading, and each goes with its own length.
    let number = unsafe {
        c::krcf_update_auto_adjust(
            state.as_mut_ptr(),
            state.len(),
            shingle_size,
            point.as_ptr(),
            point.len(),
        )
    };
    Refusal::answered(number)
}

/// The block that contributes most, of those since the last anomaly, where its row starts, and the
/// indices in the row that the forest's conditional field is asked for: how many there are and where,
/// zeros behind them.
pub fn likely_missing_indices(
    (shingle_size, base_dimension): Sizes,
    gap: usize,
    attribution: LentAttribution,
) -> Result<[usize; 8], Refusal> {
    let LentAttribution { high, low } = attribution;
    let mut out = [0; 8];
    // SAFETY: `out` is borrowed alone, the others for reading, and each goes with its own length.
    let number = unsafe {
        c::krcf_likely_missing_indices(
            shingle_size,
            base_dimension,
            gap,
            high.as_ptr(),
            high.len(),
            low.as_ptr(),
            low.len(),
            out.as_mut_ptr(),
            out.len(),
        )
    };
    Refusal::answered(number)?;
    Ok(out)
}
