//! A withdrawal before the forest is asked, and why one is not judged.

use std::error::Error;
use std::fmt;

use crate::reading::{LastDescriptor, Reading};
use crate::refusal::Refused;
use crate::types::{ScoringStrategy, TransformMethod};

/// One withdrawal as the forest sees it: what krcf's preprocessor leaves in a descriptor.
///
/// The dimension is `shingle_size` × `base_dimension`: the newest `shingle_size` rows, each of
/// `base_dimension` numbers, oldest first. The default is empty; it is there to fill up from.
#[derive(Clone, Copy, Debug, Default, PartialEq)]
pub struct Withdrawal<'a> {
    /// How many rows the point has, 1 to 64. One drawer has always the same.
    pub shingle_size: usize,
    /// How many numbers a row has, 1 to 16, as the drawer was made.
    pub base_dimension: usize,
    /// What the forest is asked for as the score.
    pub scoring_strategy: ScoringStrategy,
    /// How the forest's input was transformed.
    pub transform_method: TransformMethod,
    /// Whether the last number of a row is a time gap.
    pub time_augmented: bool,
    /// How many rows the drawer's points have taken in, this one included, 1 to 16,777,216: krcf's
    /// `values_seen`. Rows since the last anomaly are counted by it, so it grows by one with each
    /// row that enters the points, and by none for a withdrawal that is left out of them.
    pub values_seen: usize,
    /// The point, as long as the dimension.
    pub rcf_point: &'a [f32],
    /// The transform's scale of each number of a row.
    pub scale: &'a [f32],
    /// The transform's shift of each number of a row.
    pub shift: &'a [f32],
    /// The usual change of each number of a row from one withdrawal to the next.
    pub difference_deviations: &'a [f32],
}

impl<'a> Withdrawal<'a> {
    /// The reading before the forest was asked: zeros of the right length for all that it may say.
    pub(crate) fn unasked(&self, last_descriptor: LastDescriptor<'a>) -> Reading<'a> {
        Reading {
            scoring_strategy: self.scoring_strategy,
            transform_method: self.transform_method,
            time_augmented: self.time_augmented,
            values_seen: self.values_seen,
            rcf_point: self.rcf_point,
            scale: self.scale,
            shift: self.shift,
            difference_deviations: self.difference_deviations,
            last_descriptor,
            ..Reading::blank(self.shingle_size, self.base_dimension)
        }
    }
}

/// Why a withdrawal was not judged. The drawer is as it was.
#[derive(Clone, Debug, PartialEq, Eq)]
pub enum NotJudged<E> {
    /// The library refused it, or something that the forest said of it.
    Refused(Refused),
    /// A call of the forest failed.
    Forest(E),
}

impl<E> From<Refused> for NotJudged<E> {
    fn from(why: Refused) -> Self {
        NotJudged::Refused(why)
    }
}

impl<E: fmt::Display> fmt::Display for NotJudged<E> {
    fn fmt(&self, f: &mut fmt::Formatter) -> fmt::Result {
        match self {
            NotJudged::Refused(why) => why.fmt(f),
            NotJudged::Forest(why) => write!(f, "the forest failed: {why}"),
        }
    }
}

impl<E: fmt::Debug + fmt::Display> Error for NotJudged<E> {}
