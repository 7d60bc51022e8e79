//! The calls on a pool, ours and the model's.

use super::model::Model;
use super::RECORDS;
use crate::chain::{self, Handed};
use crate::ours::c;

/// The calls' kinds.
pub const KINDS: [&str; 6] = ["lay out", "open", "remove", "list", "set", "judge"];

/// A setter of a drawer in a pool, the one of a state alone, and where a state has what it sets.
pub struct Setter {
    ours: unsafe extern "C" fn(*mut u8, usize, u32, f32) -> u8,
    alone: fn(&mut [u8], f32) -> u8,
    pub field: usize,
}

pub const SETTERS: [Setter; 4] = [
    Setter {
        ours: c::krcf_pool_set_z_factor,
        alone: chain::set_z_factor,
        field: 145,
    },
    Setter {
        ours: c::krcf_pool_set_lower_threshold,
        alone: chain::set_lower_threshold,
        field: 125,
    },
    Setter {
        ours: c::krcf_pool_set_initial_threshold,
        alone: chain::set_initial_threshold,
        field: 141,
    },
    Setter {
        ours: c::krcf_pool_set_horizon,
        alone: chain::set_horizon,
        field: 8,
    },
];

/// A call with all that it is handed beside the pool.
#[derive(Clone, Debug)]
pub enum Call {
    LayOut,
    Open {
        drawer: u32,
        discount: f64,
        adjust: u8,
        base: usize,
    },
    Remove(u32),
    List(Vec<u32>),
    Set {
        setter: usize,
        drawer: u32,
        x: f32,
    },
    Judge(u32, Box<Handed>),
}

/// What a call may write beside the pool: numbers of drawers, a verdict's bytes, the expected point and both
/// halves of the attribution.
pub type Written = ((Vec<u32>, Vec<u8>), (Vec<f32>, (Vec<f64>, Vec<f64>)));

/// The numbers of a pool's drawers, by the listing alone.
pub fn list(pool: &[u8], numbers: &mut [u32]) -> u8 {
    // SAFETY: each slice is passed with its own length, and `numbers` is borrowed alone.
    unsafe {
        c::krcf_pool_list(
            pool.as_ptr(),
            pool.len(),
            numbers.as_mut_ptr(),
            numbers.len(),
        )
    }
}

impl Call {
    /// A listing into a buffer of this length, whose numbers show where nothing was written.
    pub fn list(length: usize) -> Call {
        Call::List(vec![90_000; length])
    }

    /// Our answer.
    pub fn ours(&mut self, pool: &mut [u8]) -> u8 {
        let (start, length) = (pool.as_mut_ptr(), pool.len());
        // SAFETY: the pool is passed with its own length and is borrowed alone.
        unsafe {
            match self {
                Call::LayOut => c::krcf_pool_lay_out(start, length),
                Call::Open {
                    drawer,
                    discount,
                    adjust,
                    base,
                } => c::krcf_pool_open(start, length, *drawer, *discount, *adjust, *base),
                Call::Remove(drawer) => c::krcf_pool_remove(start, length, *drawer),
                Call::List(numbers) => list(pool, numbers),
                Call::Set { setter, drawer, x } => {
                    (SETTERS[*setter].ours)(start, length, *drawer, *x)
                }
                Call::Judge(drawer, handed) => handed.judge_in(pool, *drawer),
            }
        }
    }

    /// The model's answer.
    pub fn of_model(&mut self, model: &mut Model) -> u8 {
        match self {
            Call::LayOut => {
                *model = Model::empty();
                0
            }
            Call::Open {
                drawer,
                discount,
                adjust,
                base,
            } => model.open(*drawer, *discount, *adjust, *base),
            Call::Remove(drawer) => model.remove(*drawer),
            Call::List(numbers) => model.list(numbers),
            Call::Set { setter, drawer, x } => model.set(*drawer, SETTERS[*setter].alone, *x),
            Call::Judge(drawer, handed) => model.judge(*drawer, handed),
        }
    }

    pub fn written(&self) -> Written {
        match self {
            Call::List(numbers) => ((numbers.clone(), vec![]), Default::default()),
            Call::Judge(_, h) => (
                (vec![], h.verdict.clone()),
                (h.expected.clone(), (h.out_high.clone(), h.out_low.clone())),
            ),
            _ => Default::default(),
        }
    }

    /// The drawer that it sets or judges in.
    pub fn drawer(&self) -> Option<u32> {
        match self {
            Call::Set { drawer, .. } | Call::Judge(drawer, _) => Some(*drawer),
            _ => None,
        }
    }

    /// The place of its kind.
    pub fn kind(&self) -> usize {
        match self {
            Call::LayOut => 0,
            Call::Open { .. } => 1,
            Call::Remove(_) => 2,
            Call::List(_) => 3,
            Call::Set { .. } => 4,
            Call::Judge(..) => 5,
        }
    }

    pub fn show(&self) -> String {
        match self {
            Call::Judge(drawer, h) => format!("Judge({drawer}, {:?}, {:?})", h.reading, h.last),
            _ => format!("{self:?}"),
        }
    }
}

/// A buffer for a listing, whose numbers show where nothing was written.
pub fn unlisted() -> Vec<u32> {
    vec![90_000; RECORDS]
}

/// A pool's listing: its answer and the numbers.
pub fn listing(pool: &[u8]) -> (u8, Vec<u32>) {
    let mut numbers = unlisted();
    let answer = list(pool, &mut numbers);
    (answer, numbers)
}
