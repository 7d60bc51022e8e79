//! What a drawer asks of the forest.

use crate::verdict::Attribution;

/// The forest's calls that a judgment makes, under krcf's names (`AugmentedRCF` in rcf.rs) and with
/// its arguments.
///
/// A [`Drawer`](crate::Drawer) makes exactly the calls that the Rust's `detect_and_modify` makes, in
/// its order, with its arguments, and no other:
///
/// | | [`ExpectedInverseHeight`] | [`Distance`] | of | fills |
/// |---|---|---|---|---|
/// | 1 | `score` | `density_interpolant` | the point | `score` |
/// | 2 | `score` | `density_interpolant` | the corrected point | `corrected_score` |
/// | 3 | `attribution` | `density_interpolant` | the corrected point | `attribution` |
/// | 4 | `near_neighbor_list` | `near_neighbor_list` | the corrected point | `neighbours` |
/// | 5 | `conditional_field` | `conditional_field` | the point | `median` |
/// | 6 | `attribution` | `attribution` | the expected point | `expected_attribution` |
///
/// Which of them a reading costs depends on where it ends:
///
/// | A reading that ends as | costs |
/// |---|---|
/// | refused for the withdrawal itself | none |
/// | skipped, quiet | 1 |
/// | corrected: anomaly in shingle, by the corrected score | 1, 2 |
/// | corrected: noise | 1, 2 |
/// | corrected: conditional forecast | 1, 2, 3, 4 |
/// | corrected: anomaly in shingle, forecast or data drift; raised | 1, 2, 3, 4, 5, 6 |
///
/// - 2 only if the last anomaly is at most a shingle back;
/// - 4 only with auto adjust;
/// - 5 only if there are positions to ask for, fewer than half of all;
/// - 6 only if the last anomaly, or where there is none the start, is less than a shingle back. The
///   Rust asks also where there is no anomaly, and nothing reads the answer then.
///
/// "Fills" names the field of a [`Reading`](crate::Reading). The library looks at every field that
/// is lent (refusals 3 and 4), so a field that was not asked for is lent as zeros of its length, the
/// neighbours as none: no judgment that ends before the call reads it.
///
/// Whether 2, 4 and 6 are asked, the corrected point, the expected point and the positions of call 5
/// come from the library's proved calls (`krcf_asked_of_forest`, `krcf_apply_basic_corrector`,
/// `krcf_expected_point`, `krcf_likely_missing_indices`), and so does the step from the forest's f64 to
/// the f32 that is judged (`krcf_total`, `krcf_narrow`).
///
/// A forest of krcf's own is passed on in a line a call:
///
/// ```ignore
/// struct Krcf<'a>(&'a RCFLarge<u64, u64>);
///
/// fn attribution(v: DiVector) -> Attribution {
///     Attribution { high: v.high, low: v.low }
/// }
///
/// impl Forest for Krcf<'_> {
///     type Error = RCFError;
///
///     fn score(&self, point: &[f32]) -> Result<f64, RCFError> {
///         self.0.score(point)
///     }
///     fn attribution(&self, point: &[f32]) -> Result<Attribution, RCFError> {
///         self.0.attribution(point).map(attribution)
///     }
///     fn density_interpolant(&self, point: &[f32]) -> Result<Attribution, RCFError> {
///         self.0.density_interpolant(point).map(|measure| attribution(measure.distance))
///     }
///     fn near_neighbor_list(&self, point: &[f32], percentile: usize) -> Result<Vec<f32>, RCFError> {
///         let list = self.0.near_neighbor_list(point, percentile)?;
///         Ok(list.into_iter().flat_map(|neighbour| neighbour.1).collect())
///     }
///     fn conditional_field(
///         &self, positions: &[usize], point: &[f32], centrality: f64, project: bool, max_number: usize,
///     ) -> Result<Vec<f32>, RCFError> {
///         let field = self.0.conditional_field(positions, point, centrality, project, max_number);
///         field.map(|summary| summary.median)
///     }
/// }
/// ```
///
/// [`ExpectedInverseHeight`]: crate::ScoringStrategy::ExpectedInverseHeight
/// [`Distance`]: crate::ScoringStrategy::Distance
pub trait Forest {
    /// What a call that fails answers; krcf's is `RCFError`. A drawer whose forest fails is left as
    /// it was.
    type Error;

    /// krcf's `score(point)`: the score of a point.
    fn score(&self, point: &[f32]) -> Result<f64, Self::Error>;

    /// krcf's `attribution(point)`: how much each coordinate adds to the score. Both lists are as
    /// long as the point.
    fn attribution(&self, point: &[f32]) -> Result<Attribution, Self::Error>;

    /// krcf's `density_interpolant(point)`, its field `distance`: how far each coordinate is from
    /// what the forest has seen. A score under [`Distance`](crate::ScoringStrategy::Distance) is
    /// its total.
    fn density_interpolant(&self, point: &[f32]) -> Result<Attribution, Self::Error>;

    /// krcf's `near_neighbor_list(point, percentile)`, of each neighbour the point (the middle one
    /// of its three parts), one after the other. `percentile` is 50; at most 256 neighbours.
    fn near_neighbor_list(&self, point: &[f32], percentile: usize)
        -> Result<Vec<f32>, Self::Error>;

    /// krcf's `conditional_field(positions, point, centrality, project, max_number)`, its field
    /// `median`: what the other coordinates make likely at these positions, in a list as long as
    /// the point. Centrality is 1, `project` false, `max_number` 0.
    fn conditional_field(
        &self,
        positions: &[usize],
        point: &[f32],
        centrality: f64,
        project: bool,
        max_number: usize,
    ) -> Result<Vec<f32>, Self::Error>;
}

/// What a reading asks of the forest past an opening grade above 0, beside the attribution of the
/// corrected point and the conditional field, and what goes to the corrector: the answer of
/// [`Watch::asked_of_forest`](crate::Watch::asked_of_forest). Behind each name stands the field of a
/// [`Reading`](crate::Reading) that the answer fills.
#[derive(Clone, Copy, Debug, Default, PartialEq, Eq)]
pub struct AskedOfForest {
    /// How many readings it is since the last anomaly; where there is none, since the start.
    pub gap: usize,
    /// The corrected point's score: the last anomaly is at most a shingle back. Fills
    /// `corrected_score`.
    pub corrected_score: bool,
    /// The neighbours: with auto adjust. Fills `neighbours`.
    pub near_neighbor_list: bool,
    /// The expected point's attribution, krcf's `new_attribution`: the gap is less than a shingle.
    /// Fills `expected_attribution`.
    pub new_attribution: bool,
    /// Whether the corrector takes the point's numbers for differences: krcf's `use_difference`.
    pub use_difference: bool,
}
