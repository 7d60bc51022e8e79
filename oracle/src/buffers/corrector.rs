//! The corrector. Behind a no the last anomaly's points have any length and any floats.

use rcflib::common::descriptor::{AnomalyInformation, Descriptor};
use rcflib::trcf::predictorcorrector::PredictorCorrector;

use super::{no_size, room, singles, sizes, sizes_ok, unbound, Call};
use crate::ours::c;
use crate::random::Random;
use crate::readings::damage::resize;
use crate::readings::making::no_anomaly;
use crate::refusals::{LENGTH, NOT_FINITE, RANGE, VALUES_SEEN};
use crate::values;

/// The last anomaly's points are those behind the first.
#[derive(Clone, Debug)]
pub struct Corrector {
    pub points: [Vec<f32>; 3],
    pub gap: usize,
    pub shingle: usize,
    pub base: usize,
    pub has_anomaly: u8,
    pub relative_index: i32,
    pub use_difference: u8,
    pub time_augmented: u8,
    pub out: Vec<f32>,
}

impl Corrector {
    /// The points that are looked at.
    fn read(&self) -> &[Vec<f32>] {
        &self.points[..if self.has_anomaly == 1 { 3 } else { 1 }]
    }
}

fn unread(random: &mut Random) -> Vec<f32> {
    let n = random.below(4);
    let any = |_| values::any32(random, values::list32());
    (0..n).map(any).collect()
}

impl Call for Corrector {
    const NUMBERS: &'static [u8] = &[RANGE, LENGTH, NOT_FINITE, VALUES_SEEN];

    type Left = Vec<f32>;

    fn sound(random: &mut Random) -> Self {
        let (shingle, base) = sizes(random);
        let d = shingle * base;
        let near = 1 + random.below(shingle as u64 + 2) as usize;
        let any = random.word() as i32;
        let has_anomaly = !random.once_in(8);
        let mut last = || match has_anomaly {
            true => singles(random, d),
            false => unread(random),
        };
        let (expected, anomalous) = (last(), last());
        Corrector {
            points: [singles(random, d), expected, anomalous],
            gap: random.of(&[near, near, near, shingle, 1 << 63, usize::MAX]),
            shingle,
            base,
            has_anomaly: has_anomaly as u8,
            relative_index: random.of(&[0, 0, 0, -1, -63, i32::MIN, any]),
            use_difference: random.below(2) as u8,
            time_augmented: random.below(2) as u8,
            out: room(d),
        }
    }

    fn spoil(&mut self, random: &mut Random, number: u8) {
        let read = self.read().len() as u64;
        let above = random.of(&[2, 3, 255]);
        match number {
            RANGE => match random.below(5) {
                0 => self.shingle = no_size(random, 64),
                1 => self.base = no_size(random, 16),
                2 => self.has_anomaly = above,
                3 => self.use_difference = above,
                _ => self.time_augmented = above,
            },
            LENGTH => match random.below(read + 1) {
                0 => resize(random, &mut self.out, 1.0),
                k => resize(random, &mut self.points[k as usize - 1], 1.0),
            },
            NOT_FINITE => {
                let k = random.below(read) as usize;
                unbound(random, &mut self.points[k], |x| x);
            }
            _ => self.gap = 0,
        }
    }

    fn refusal(&self) -> u8 {
        let bytes = [self.has_anomaly, self.use_difference, self.time_augmented];
        let d = self.shingle.wrapping_mul(self.base);
        if !sizes_ok(self.shingle, self.base) || bytes.iter().any(|&b| b > 1) {
            RANGE
        } else if self.out.len() != d || self.read().iter().any(|list| list.len() != d) {
            LENGTH
        } else if self.read().iter().flatten().any(|x| !x.is_finite()) {
            NOT_FINITE
        } else if self.gap == 0 {
            VALUES_SEEN
        } else {
            0
        }
    }

    fn ours(&mut self) -> u8 {
        let [point, expected, anomalous] = &self.points;
        // SAFETY: each slice is passed with its own length, and `out` is borrowed alone.
        unsafe {
            c::krcf_apply_basic_corrector(
                point.as_ptr(),
                point.len(),
                self.gap,
                self.shingle,
                self.base,
                self.has_anomaly,
                expected.as_ptr(),
                expected.len(),
                anomalous.as_ptr(),
                anomalous.len(),
                self.relative_index,
                self.use_difference,
                self.time_augmented,
                self.out.as_mut_ptr(),
                self.out.len(),
            )
        }
    }

    fn rust(&self) -> Vec<f32> {
        let [point, expected, anomalous] = &self.points;
        let anomaly = || AnomalyInformation {
            expected_rcf_point: expected.clone(),
            anomalous_rcf_point: anomalous.clone(),
            relative_index: self.relative_index,
            ..no_anomaly()
        };
        let last = Descriptor {
            last_anomaly: (self.has_anomaly == 1).then(anomaly),
            ..Descriptor::default()
        };
        PredictorCorrector::apply_basic_corrector(
            point,
            self.gap,
            self.shingle,
            self.base,
            &last,
            self.use_difference == 1,
            self.time_augmented == 1,
        )
    }

    fn left(&self) -> Vec<f32> {
        self.out.clone()
    }

    fn show(&self) -> String {
        format!("{self:?}")
    }
}
