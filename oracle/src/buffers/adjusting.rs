//! Auto adjust: the oldest row of a point counted in a state's bytes.

use rcflib::trcf::predictorcorrector::PredictorCorrector;

use super::{no_size, singles, sizes, sizes_ok, unbound, Call};
use crate::chain::{self, state_of, ADJUST, BASE, RUN};
use crate::ours::c;
use crate::random::Random;
use crate::readings::damage::{count, put, resize};
use crate::readings::states;
use crate::readings::table::{counts, out_of_count, word, AUTO_THRESHOLD};
use crate::refusals::{COUNT, LENGTH, NOT_FINITE, RANGE};

#[derive(Clone, Debug)]
pub struct AutoAdjust {
    pub state: Vec<u8>,
    pub shingle: usize,
    pub point: Vec<f32>,
}

/// Random bytes, of which only codes, base and counts are put right: a NaN has any pattern.
fn raw(random: &mut Random, adjust: bool, base: usize) -> Vec<u8> {
    let mut bytes: Vec<u8> = (0..chain::STATE).map(|_| random.word() as u8).collect();
    bytes[AUTO_THRESHOLD] &= 1;
    bytes[ADJUST] = adjust as u8;
    put(&mut bytes, BASE, base);
    for at in counts(&bytes) {
        put(&mut bytes, at, random.below(16_777_216) as usize);
    }
    bytes
}

impl Call for AutoAdjust {
    const NUMBERS: &'static [u8] = &[RANGE, LENGTH, NOT_FINITE, COUNT];

    type Left = Vec<u8>;

    fn sound(random: &mut Random) -> Self {
        let (shingle, base) = sizes(random);
        let adjust = !random.once_in(4);
        let mut state = match random.below(2) {
            0 => raw(random, adjust, base),
            _ => {
                let any = states::arbitrary(random, adjust, base);
                states::bytes(random, &any, base)
            }
        };
        if random.once_in(4) {
            put(&mut state, RUN, random.of(&[0, 1, 16_777_215]));
        }
        AutoAdjust {
            state,
            shingle,
            point: singles(random, shingle * base),
        }
    }

    fn spoil(&mut self, random: &mut Random, number: u8) {
        let above = random.of(&[2, 3, 255]);
        match number {
            // The state may be of another length already.
            RANGE if self.state.len() != chain::STATE => self.shingle = no_size(random, 64),
            RANGE => match random.below(4) {
                0 => self.shingle = no_size(random, 64),
                1 => self.state[AUTO_THRESHOLD] = above,
                2 => self.state[ADJUST] = above,
                _ => put(
                    &mut self.state,
                    BASE,
                    random.of(&[0, 17, u32::MAX as usize]),
                ),
            },
            LENGTH if random.once_in(2) => {
                resize(random, &mut self.state, 0);
                if random.once_in(2) {
                    self.state.fill(255);
                }
            }
            LENGTH => resize(random, &mut self.point, 1.0),
            NOT_FINITE => unbound(random, &mut self.point, |x| x),
            _ => count(random, &mut self.state),
        }
    }

    fn refusal(&self) -> u8 {
        let whole = self.state.len() == chain::STATE;
        let base = if whole { word(&self.state, BASE) } else { 1 };
        let codes = !whole || (self.state[AUTO_THRESHOLD] <= 1 && self.state[ADJUST] <= 1);
        if !codes || !sizes_ok(self.shingle, base) {
            RANGE
        } else if !whole || self.point.len() != self.shingle * base {
            LENGTH
        } else if self.point.iter().any(|x| !x.is_finite()) {
            NOT_FINITE
        } else if out_of_count(&self.state) {
            COUNT
        } else {
            0
        }
    }

    fn ours(&mut self) -> u8 {
        // SAFETY: each slice is passed with its own length, and `state` is borrowed alone.
        unsafe {
            c::krcf_update_auto_adjust(
                self.state.as_mut_ptr(),
                self.state.len(),
                self.shingle,
                self.point.as_ptr(),
                self.point.len(),
            )
        }
    }

    /// Written are the entries that exist and what stands before the lists.
    fn rust(&self) -> Vec<u8> {
        let mut chain = PredictorCorrector::of_state(state_of(&self.state));
        chain.update_auto_adjust(&self.point);
        let mut bytes = self.state.clone();
        states::put(&chain.state(), word(&self.state, BASE), &mut bytes);
        bytes
    }

    fn left(&self) -> Vec<u8> {
        self.state.clone()
    }

    fn show(&self) -> String {
        let run = self.state.get(RUN..RUN + 4);
        format!(
            "run {run:?}, shingle {}, point {:?}, state {:?}",
            self.shingle, self.point, self.state
        )
    }
}
