//! The indices that a host hands to the forest's conditional field, with the block they come from and
//! where its row starts.
//! The Rust's are those of the call that its expected_point makes, none where it makes none.

use rcflib::common::divector::DiVector;
use rcflib::rcf::{Call as Asked, Lent, RCFLarge};
use rcflib::trcf::predictorcorrector::PredictorCorrector;

use super::expected::ATTRIBUTORS;
use super::{doubles, no_size, sizes, sizes_ok, unbound, Call};
use crate::ours::c;
use crate::parts::vectors::block;
use crate::random::Random;
use crate::readings::damage::resize;
use crate::refusals::{LENGTH, NOT_FINITE, RANGE, VALUES_SEEN};

/// Block, start, count, and room for the indices.
pub const ROOM: usize = 3 + ATTRIBUTORS;

#[derive(Clone, Debug)]
pub struct MissingIndices {
    pub shingle: usize,
    pub base: usize,
    pub gap: usize,
    pub vectors: [Vec<f64>; 2],
    pub out: Vec<usize>,
}

impl Call for MissingIndices {
    const NUMBERS: &'static [u8] = &[RANGE, LENGTH, NOT_FINITE, VALUES_SEEN];

    type Left = Vec<usize>;

    /// The buffer has values of its own, so that a change shows.
    fn sound(random: &mut Random) -> Self {
        let (shingle, base) = sizes(random);
        let near = 1 + random.below(shingle as u64 + 2) as usize;
        MissingIndices {
            shingle,
            base,
            gap: random.of(&[near, near, near, shingle, 1 << 63, usize::MAX]),
            vectors: [
                doubles(random, shingle * base),
                doubles(random, shingle * base),
            ],
            out: (0..ROOM).map(|k| 9000 + k).collect(),
        }
    }

    fn spoil(&mut self, random: &mut Random, number: u8) {
        match number {
            RANGE if random.once_in(2) => self.shingle = no_size(random, 64),
            RANGE => self.base = no_size(random, 16),
            LENGTH => match random.below(3) as usize {
                2 => resize(random, &mut self.out, 1),
                k => resize(random, &mut self.vectors[k], 1.0),
            },
            NOT_FINITE => {
                let k = random.below(2) as usize;
                unbound(random, &mut self.vectors[k], f64::from);
            }
            _ => self.gap = 0,
        }
    }

    fn refusal(&self) -> u8 {
        let d = self.shingle.wrapping_mul(self.base);
        if !sizes_ok(self.shingle, self.base) {
            RANGE
        } else if self.vectors.iter().any(|list| list.len() != d) || self.out.len() != ROOM {
            LENGTH
        } else if self.vectors.iter().flatten().any(|x| !x.is_finite()) {
            NOT_FINITE
        } else if self.gap == 0 {
            VALUES_SEEN
        } else {
            0
        }
    }

    fn ours(&mut self) -> u8 {
        let [high, low] = &self.vectors;
        // SAFETY: each slice is passed with its own length, and `out` is borrowed alone.
        unsafe {
            c::krcf_likely_missing_indices(
                self.shingle,
                self.base,
                self.gap,
                high.as_ptr(),
                high.len(),
                low.as_ptr(),
                low.len(),
                self.out.as_mut_ptr(),
                self.out.len(),
            )
        }
    }

    /// Behind the indices stand zeros.
    fn rust(&self) -> Vec<usize> {
        let [high, low] = self.vectors.clone();
        let d = high.len();
        let attribution = DiVector { high, low };
        let block = block(&attribution, self.base, self.gap).expect("a gap, and whole blocks");
        let lent = Lent {
            median: vec![0.0; d],
            ..Lent::default()
        };
        let forest = RCFLarge::<u64, u64>::lending(d, lent);
        let position = block * d / self.shingle;
        PredictorCorrector::expected_point(
            &attribution,
            ATTRIBUTORS,
            position,
            self.base,
            &vec![0.0; d],
            &forest,
        )
        .expect("the stand-in forest refuses nothing");
        let indices = match forest.calls().pop() {
            Some(Asked::Field(indices, ..)) => indices,
            _ => vec![],
        };
        let mut out = vec![block, position, indices.len()];
        out.extend(indices);
        out.resize(ROOM, 0);
        out
    }

    fn left(&self) -> Vec<usize> {
        self.out.clone()
    }

    fn show(&self) -> String {
        format!("{self:?}")
    }
}
