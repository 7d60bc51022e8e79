//! What the caller lends with a reading.

use crate::types::{ScoringStrategy, TransformMethod};

/// The forest's attribution of a score: how much each coordinate adds by being too high or too low.
/// Both slices are as long as the point.
#[derive(Clone, Copy, Debug, Default, PartialEq)]
pub struct LentAttribution<'a> {
    /// By being too high.
    pub high: &'a [f64],
    /// By being too low.
    pub low: &'a [f64],
}

/// The last raised reading of the drawer.
#[derive(Clone, Copy, Debug, Default, PartialEq)]
pub struct LastAnomaly<'a> {
    /// The `relative_index` that it was raised with.
    pub relative_index: i32,
    /// Its `values_seen`.
    pub values_seen: usize,
    /// Whether its attribution was kept. The attribution itself is not needed.
    pub has_attribution: bool,
    /// Its score.
    pub score: f32,
    /// The point that was expected instead of it.
    pub expected_rcf_point: &'a [f32],
    /// Its own point.
    pub anomalous_rcf_point: &'a [f32],
}

/// What a judgment needs of the reading before.
#[derive(Clone, Copy, Debug, Default, PartialEq)]
pub struct LastDescriptor<'a> {
    /// What its score is.
    pub scoring_strategy: ScoringStrategy,
    /// Its score.
    pub score: f32,
    /// The threshold of its verdict.
    pub threshold: f32,
    /// The drawer's last raised reading, if there is one.
    pub last_anomaly: Option<LastAnomaly<'a>>,
}

/// One withdrawal as the forest sees it, and what the forest says of it.
///
/// The dimension is `shingle_size` × `base_dimension`: the newest `shingle_size` rows, each of
/// `base_dimension` numbers, oldest first. The default is empty; it is there to fill up from.
///
/// ```
/// use withdrawal_watch::{Reading, Refusal, Watch};
///
/// let mut watch = Watch::new(0.01, false, 1)?;
/// let why = watch.judge(&Reading::default()).unwrap_err();
/// assert_eq!(why.refusal(), Refusal::Range);
/// assert_eq!(why.about(), "shingle_size: 0, not 1 to 64");
/// # Ok::<(), withdrawal_watch::Refused>(())
/// ```
#[derive(Clone, Copy, Debug, Default, PartialEq)]
pub struct Reading<'a> {
    /// How many rows the point has, 1 to 64.
    pub shingle_size: usize,
    /// How many numbers a row has, 1 to 16, as the watch was made.
    pub base_dimension: usize,
    /// What the score is.
    pub scoring_strategy: ScoringStrategy,
    /// How the forest's input was transformed.
    pub transform_method: TransformMethod,
    /// Whether the last number of a row is a time gap.
    pub time_augmented: bool,
    /// Which reading of the drawer this is, 1 to 16,777,216.
    pub values_seen: usize,
    /// The forest's score of the point; a score of 0 is skipped.
    pub score: f32,
    /// The forest's score of the corrected point: used within a shingle of the last anomaly.
    pub corrected_score: f32,
    /// The point, as long as the dimension.
    pub rcf_point: &'a [f32],
    /// The transform's scale of each number of a row.
    pub scale: &'a [f32],
    /// The transform's shift of each number of a row.
    pub shift: &'a [f32],
    /// The usual change of each number of a row from one reading to the next.
    pub difference_deviations: &'a [f32],
    /// The forest's attribution of the corrected point.
    pub attribution: LentAttribution<'a>,
    /// The forest's conditional median: for each coordinate what the others make likely.
    pub median: &'a [f32],
    /// The forest's attribution of the expected point.
    pub expected_attribution: LentAttribution<'a>,
    /// The points of up to 256 near neighbours, one after the other.
    pub neighbours: &'a [f32],
    /// The reading before.
    pub last_descriptor: LastDescriptor<'a>,
}

/// As many zeros as a list of a reading can be long.
static ZEROS: [f32; 1024] = [0.0; 1024];

/// The attribution of nothing, for a point of this length.
pub(crate) fn no_attribution(dimension: usize) -> LentAttribution<'static> {
    static ZEROS: [f64; 1024] = [0.0; 1024];
    LentAttribution {
        high: &ZEROS[..dimension],
        low: &ZEROS[..dimension],
    }
}

impl Reading<'_> {
    /// Zeros of the right length for every list; none for sizes that are refused.
    pub(crate) fn blank(shingle_size: usize, base_dimension: usize) -> Reading<'static> {
        let sizes = Reading {
            shingle_size,
            base_dimension,
            ..Reading::default()
        };
        let point = &ZEROS[..sizes.dimension()];
        let row = &point[..base_dimension.min(point.len())];
        Reading {
            rcf_point: point,
            scale: row,
            shift: row,
            difference_deviations: row,
            attribution: no_attribution(point.len()),
            median: point,
            expected_attribution: no_attribution(point.len()),
            ..sizes
        }
    }

    /// How long the buffers of a raised reading must be; 0 for sizes that are refused.
    pub(crate) fn dimension(&self) -> usize {
        if (1..=64).contains(&self.shingle_size) && (1..=16).contains(&self.base_dimension) {
            self.shingle_size * self.base_dimension
        } else {
            0
        }
    }
}
