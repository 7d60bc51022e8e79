include!("../../../../target/oracle/sources/crates/rcflib/src/trcf/basicthresholder.rs");

/// The state's numbers in the Rust's order; its minimum of scores is always 10 and is left out.
#[derive(Clone, Debug)]
pub struct Numbers {
    pub elasticity: f32,
    pub count: i32,
    pub score_differencing: f32,
    pub last_score: f32,
    pub primary_deviation: Deviation,
    pub secondary_deviation: Deviation,
    pub threshold_deviation: Deviation,
    pub auto_threshold: bool,
    pub absolute_threshold: f32,
    pub absolute_score_fraction: f32,
    pub lower_threshold: f32,
    pub factor_adjustment_threshold: f32,
    pub initial_threshold: f32,
    pub z_factor: f32,
}

impl BasicThresholder {
    pub fn numbers(&self) -> Numbers {
        assert_eq!(self.minimum_scores, DEFAULT_MINIMUM_SCORES);
        Numbers {
            elasticity: self.elasticity,
            count: self.count,
            score_differencing: self.score_differencing,
            last_score: self.last_score,
            primary_deviation: self.primary_deviation.clone(),
            secondary_deviation: self.secondary_deviation.clone(),
            threshold_deviation: self.threshold_deviation.clone(),
            auto_threshold: self.auto_threshold,
            absolute_threshold: self.absolute_threshold,
            absolute_score_fraction: self.absolute_score_fraction,
            lower_threshold: self.lower_threshold,
            factor_adjustment_threshold: self.factor_adjustment_threshold,
            initial_threshold: self.initial_threshold,
            z_factor: self.z_factor,
        }
    }

    pub fn of_numbers(n: Numbers) -> Self {
        BasicThresholder {
            elasticity: n.elasticity,
            count: n.count,
            score_differencing: n.score_differencing,
            last_score: n.last_score,
            primary_deviation: n.primary_deviation,
            secondary_deviation: n.secondary_deviation,
            threshold_deviation: n.threshold_deviation,
            auto_threshold: n.auto_threshold,
            absolute_threshold: n.absolute_threshold,
            absolute_score_fraction: n.absolute_score_fraction,
            lower_threshold: n.lower_threshold,
            factor_adjustment_threshold: n.factor_adjustment_threshold,
            initial_threshold: n.initial_threshold,
            z_factor: n.z_factor,
            minimum_scores: DEFAULT_MINIMUM_SCORES,
        }
    }

    /// The counts of the thresholder and of its statistics.
    pub fn counts(&self) -> [i32; 4] {
        [
            self.count,
            self.primary_deviation.count,
            self.secondary_deviation.count,
            self.threshold_deviation.count,
        ]
    }
}
