//! The expected point. The Rust's conditional field is the stand-in forest's, which lends the median.

use rcflib::common::divector::DiVector;
use rcflib::rcf::{Lent, RCFLarge};
use rcflib::trcf::predictorcorrector::PredictorCorrector;

use super::{doubles, no_size, room, singles, sizes, sizes_ok, unbound, Call};
use crate::ours::c;
use crate::random::Random;
use crate::readings::damage::resize;
use crate::refusals::{LENGTH, NOT_FINITE, RANGE};

/// The Rust's most attributors.
pub const ATTRIBUTORS: usize = 5;

#[derive(Clone, Debug)]
pub struct ExpectedPoint {
    pub shingle: usize,
    pub base: usize,
    pub position: usize,
    pub points: [Vec<f32>; 2],
    pub vectors: [Vec<f64>; 2],
    pub out: Vec<f32>,
}

impl Call for ExpectedPoint {
    const NUMBERS: &'static [u8] = &[RANGE, LENGTH, NOT_FINITE];

    type Left = Vec<f32>;

    /// The row starts at a block, at the last place that there is for it, or anywhere.
    fn sound(random: &mut Random) -> Self {
        let (shingle, base) = sizes(random);
        let d = shingle * base;
        let position = match random.below(4) {
            0 => random.below((d - base) as u64 + 1) as usize,
            1 => d - base,
            _ => base * random.below(shingle as u64) as usize,
        };
        ExpectedPoint {
            shingle,
            base,
            position,
            points: [singles(random, d), singles(random, d)],
            vectors: [doubles(random, d), doubles(random, d)],
            out: room(d),
        }
    }

    fn spoil(&mut self, random: &mut Random, number: u8) {
        match number {
            RANGE if random.once_in(2) => self.shingle = no_size(random, 64),
            RANGE => self.base = no_size(random, 16),
            LENGTH => match random.below(6) as usize {
                k @ 0..=1 => resize(random, &mut self.points[k], 1.0),
                k @ 2..=3 => resize(random, &mut self.vectors[k - 2], 1.0),
                4 => resize(random, &mut self.out, 1.0),
                _ => {
                    let last = self.shingle * self.base - self.base;
                    self.position = random.of(&[last + 1, last + self.base, usize::MAX]);
                }
            },
            _ => match random.below(4) as usize {
                k @ 0..=1 => unbound(random, &mut self.points[k], |x| x),
                k => unbound(random, &mut self.vectors[k - 2], f64::from),
            },
        }
    }

    fn refusal(&self) -> u8 {
        if !sizes_ok(self.shingle, self.base) {
            return RANGE;
        }
        let d = self.shingle * self.base;
        let whole = self.points.iter().all(|list| list.len() == d)
            && self.vectors.iter().all(|list| list.len() == d)
            && self.out.len() == d;
        if !whole || self.position > d - self.base {
            LENGTH
        } else if !(self.points.iter().flatten().all(|x| x.is_finite())
            && self.vectors.iter().flatten().all(|x| x.is_finite()))
        {
            NOT_FINITE
        } else {
            0
        }
    }

    fn ours(&mut self) -> u8 {
        let [point, median] = &self.points;
        let [high, low] = &self.vectors;
        // SAFETY: each slice is passed with its own length, and `out` is borrowed alone.
        unsafe {
            c::krcf_expected_point(
                self.shingle,
                self.base,
                self.position,
                point.as_ptr(),
                point.len(),
                high.as_ptr(),
                high.len(),
                low.as_ptr(),
                low.len(),
                median.as_ptr(),
                median.len(),
                self.out.as_mut_ptr(),
                self.out.len(),
            )
        }
    }

    fn rust(&self) -> Vec<f32> {
        let [point, median] = &self.points;
        let [high, low] = self.vectors.clone();
        let lent = Lent {
            median: median.clone(),
            ..Lent::default()
        };
        let forest = RCFLarge::<u64, u64>::unwatched(self.shingle * self.base, lent);
        PredictorCorrector::expected_point(
            &DiVector { high, low },
            ATTRIBUTORS,
            self.position,
            self.base,
            point,
            &forest,
        )
        .expect("the stand-in forest refuses nothing")
    }

    fn left(&self) -> Vec<f32> {
        self.out.clone()
    }

    fn show(&self) -> String {
        format!("{self:?}")
    }
}
