include!("../../../../target/oracle/sources/crates/rcflib/src/trcf/predictorcorrector.rs");

use crate::trcf::basicthresholder::Numbers;

/// The state of the whole chain; its most attributors are always 5 and are left out.
#[derive(Clone, Debug)]
pub struct State {
    pub basic_thresholder: Numbers,
    pub auto_adjust: bool,
    pub run_length: usize,
    pub deviations_actual: Vec<Deviation>,
    pub deviations_expected: Vec<Deviation>,
}

impl PredictorCorrector {
    pub fn state(&self) -> State {
        assert_eq!(self.max_attributors, DEFAULT_NUMBER_OF_MAX_ATTRIBUTORS);
        State {
            basic_thresholder: self.basic_thresholder.numbers(),
            auto_adjust: self.auto_adjust,
            run_length: self.run_length,
            deviations_actual: self.deviations_actual.clone(),
            deviations_expected: self.deviations_expected.clone(),
        }
    }

    pub fn of_state(s: State) -> Self {
        PredictorCorrector {
            basic_thresholder: BasicThresholder::of_numbers(s.basic_thresholder),
            auto_adjust: s.auto_adjust,
            run_length: s.run_length,
            deviations_actual: s.deviations_actual,
            deviations_expected: s.deviations_expected,
            max_attributors: DEFAULT_NUMBER_OF_MAX_ATTRIBUTORS,
        }
    }
}

/// What is private otherwise.
impl PredictorCorrector {
    pub fn path_deviation(point: &[f32], base_dimension: usize, differenced: bool) -> f32 {
        Self::calculate_path_deviation(point, 0, 0, base_dimension, differenced)
    }

    pub fn noise_pass(base_dimension: usize, result: &Descriptor, point: &[f32]) -> f32 {
        Self::centered_transform_pass(base_dimension, result, point)
    }

    pub fn uncertainty_box(
        point: &[f32],
        start_position: usize,
        base_dimension: usize,
        result: &Descriptor,
    ) -> Vec<f32> {
        Self::construct_uncertainty_box(point, start_position, base_dimension, result)
    }

    pub fn within_box(
        uncertainty_box: &[f32],
        start_position: usize,
        scale: &[f32],
        point: &[f32],
        other_point: &[f32],
    ) -> bool {
        Self::within_unertainty_box(uncertainty_box, start_position, scale, point, other_point)
    }
}

impl PredictorCorrector {
    /// Run length and counts from 0 to 16,777,215, as document 01 has it.
    pub fn counts_ok(&self) -> bool {
        let lists = self
            .deviations_actual
            .iter()
            .chain(&self.deviations_expected);
        let counts = self.basic_thresholder.counts().into_iter();
        self.run_length <= 16_777_215
            && counts
                .chain(lists.map(|d| d.count))
                .all(|n| (0..=16_777_215).contains(&n))
    }
}
