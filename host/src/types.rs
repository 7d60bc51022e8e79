//! The small enums, in the order of the Rust's types.rs.

/// How the forest's input was transformed.
///
/// ```
/// use withdrawal_watch::TransformMethod;
///
/// assert_eq!(TransformMethod::default(), TransformMethod::None);
/// assert_eq!(TransformMethod::NormalizeDifference.code(), 5);
/// ```
#[derive(Clone, Copy, Debug, Default, PartialEq, Eq, Hash)]
#[repr(u8)]
pub enum TransformMethod {
    /// Not at all.
    #[default]
    None,
    /// By a weight for each input.
    Weighted,
    /// To the difference from the input before.
    Difference,
    /// By subtracting the moving average.
    SubtractMa,
    /// To a common scale.
    Normalize,
    /// To the difference from the input before, on a common scale.
    NormalizeDifference,
}

/// What a score is.
///
/// ```
/// use withdrawal_watch::ScoringStrategy;
///
/// assert_eq!(ScoringStrategy::default(), ScoringStrategy::ExpectedInverseHeight);
/// assert_eq!(ScoringStrategy::Distance.code(), 1);
/// ```
#[derive(Clone, Copy, Debug, Default, PartialEq, Eq, Hash)]
#[repr(u8)]
pub enum ScoringStrategy {
    /// The forest's own score.
    #[default]
    ExpectedInverseHeight,
    /// A distance from what the forest has seen.
    Distance,
}

/// Why a reading whose score was graded above 0 is not raised.
///
/// ```
/// use withdrawal_watch::CorrectionMode;
///
/// assert_eq!(CorrectionMode::DataDrift.code(), 6);
/// ```
#[derive(Clone, Copy, Debug, PartialEq, Eq, Hash)]
#[repr(u8)]
pub enum CorrectionMode {
    /// No reason; no verdict carries it.
    None,
    /// The point is no more than noise.
    Noise,
    /// Not in use.
    MultiMode,
    /// An earlier anomaly that is still in the shingle explains the score.
    AnomalyInShingle,
    /// Enough of the neighbours are alike.
    ConditionalForecast,
    /// The expected point is hardly different.
    Forecast,
    /// The drawer has moved to a new level.
    DataDrift,
}

impl TransformMethod {
    /// Its number in the C interface.
    pub fn code(self) -> u8 {
        self as u8
    }
}

impl ScoringStrategy {
    /// Its number in the C interface.
    pub fn code(self) -> u8 {
        self as u8
    }

    /// The strategy with this number.
    pub(crate) fn of_code(code: u8) -> Option<ScoringStrategy> {
        let all = [
            ScoringStrategy::ExpectedInverseHeight,
            ScoringStrategy::Distance,
        ];
        all.into_iter().find(|strategy| strategy.code() == code)
    }
}

impl CorrectionMode {
    const ALL: [CorrectionMode; 7] = [
        CorrectionMode::None,
        CorrectionMode::Noise,
        CorrectionMode::MultiMode,
        CorrectionMode::AnomalyInShingle,
        CorrectionMode::ConditionalForecast,
        CorrectionMode::Forecast,
        CorrectionMode::DataDrift,
    ];

    /// Its number in the C interface.
    pub fn code(self) -> u8 {
        self as u8
    }

    /// The mode with this number.
    pub(crate) fn of_code(code: u8) -> Option<CorrectionMode> {
        CorrectionMode::ALL
            .into_iter()
            .find(|mode| mode.code() == code)
    }
}

#[cfg(test)]
mod tests {
    use super::CorrectionMode;

    #[test]
    fn each_mode_stands_at_its_code() {
        for mode in CorrectionMode::ALL {
            assert_eq!(CorrectionMode::of_code(mode.code()), Some(mode));
        }
        assert_eq!(CorrectionMode::of_code(7), None);
    }
}
