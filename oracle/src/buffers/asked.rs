//! What a judgment asks of the forest past its opening grade. The Rust's calls are those that it makes
//! for a reading that passes every test on the way: loud scores, a point beyond the noise, a neighbour
//! far off.

use rcflib::rcf::Call as Asked;
use rcflib::trcf::basicthresholder::BasicThresholder;
use rcflib::trcf::predictorcorrector::PredictorCorrector;
use rcflib::trcf::types::TransformMethod::{DIFFERENCE, NORMALIZE_DIFFERENCE};

use super::{sizes, Call};
use crate::chain::{self, Handed, ADJUST, BASE};
use crate::fresh;
use crate::ours::c;
use crate::random::Random;
use crate::readings::damage::{put, range, resize, time};
use crate::readings::table::{
    not_finite, out_of_range, out_of_time, word, ANOMALY, ATTRIBUTION, AUTO_THRESHOLD, LAST_SEEN,
    READING, READING_BASE, SEEN, SHINGLE,
};
use crate::readings::{decoded, Reading};
use crate::refusals::{LENGTH, NOT_FINITE, RANGE, VALUES_SEEN};
use crate::values;

/// The gap, and four times yes or no.
pub const ROOM: usize = 5;

/// The largest number of values seen.
const LARGEST: u64 = 16_777_216;

/// A score far over every threshold, and a point far from its neighbour.
const LOUD: f32 = 100.0;

/// Of `handed` our call takes the state, the reading and the last descriptor.
#[derive(Clone, Debug)]
pub struct AskedOfForest {
    pub handed: Handed,
    pub out: Vec<usize>,
}

fn uniform(random: &mut Random, n: usize) -> Vec<u8> {
    (0..n).map(|_| random.word() as u8).collect()
}

fn put_single(random: &mut Random, bytes: &mut [u8], at: usize) {
    let x = values::any32(random, values::list32());
    let finite = if x.is_finite() { x } else { 0.5 };
    bytes[at..at + 4].copy_from_slice(&finite.to_le_bytes());
}

/// Random bytes whose codes and base are put right. Counts are not looked at.
fn state(random: &mut Random, base: usize) -> Vec<u8> {
    let mut bytes = uniform(random, chain::STATE);
    bytes[AUTO_THRESHOLD] &= 1;
    bytes[ADJUST] &= 1;
    put(&mut bytes, BASE, base);
    bytes
}

/// A last descriptor; behind a no its bytes are random.
fn last(random: &mut Random) -> Vec<u8> {
    let mut bytes = uniform(random, READING);
    bytes[0] &= 1;
    put_single(random, &mut bytes, 1);
    put_single(random, &mut bytes, 5);
    bytes[ANOMALY] = !random.once_in(4) as u8;
    if bytes[ANOMALY] == 1 {
        put_single(random, &mut bytes, 19);
        bytes[ATTRIBUTION] &= 1;
        let seen = random.below(LARGEST) >> random.below(24);
        put(&mut bytes, LAST_SEEN, seen as usize);
    }
    bytes
}

/// A gap around the shingle size, or any.
fn gap(random: &mut Random, shingle: usize) -> usize {
    let any = random.below(LARGEST) >> random.below(24);
    let near = 1 + random.below(shingle as u64 + 2);
    let shingle = shingle as u64;
    random.of(&[near, near, shingle.max(2) - 1, shingle, shingle + 1, any]) as usize
}

fn reading(random: &mut Random, shingle: usize, base: usize, last: &[u8]) -> Vec<u8> {
    let mut bytes = uniform(random, READING);
    put(&mut bytes, SHINGLE, shingle);
    put(&mut bytes, READING_BASE, base);
    bytes[8] &= 1;
    bytes[9] %= 6;
    bytes[10] &= 1;
    let since = if last[ANOMALY] == 1 {
        word(last, LAST_SEEN)
    } else {
        0
    };
    let seen = since + gap(random, shingle).max(1);
    put(&mut bytes, SEEN, seen.min(LARGEST as usize));
    put_single(random, &mut bytes, 15);
    put_single(random, &mut bytes, 19);
    bytes
}

/// The lists of a reading that passes every test. The last anomaly changed nothing, so its correction
/// leaves the point.
fn loud(state: Vec<u8>, reading: Vec<u8>, last: Vec<u8>) -> Handed {
    let base = word(&reading, READING_BASE);
    let d = word(&reading, SHINGLE) * base;
    let (point, far) = (vec![LOUD; d], vec![-LOUD; d]);
    let (row, zeros) = (vec![0.0; base], vec![0.0; d]);
    let scale = vec![1.0; base];
    Handed {
        points: [
            point.clone(),
            scale,
            row.clone(),
            row,
            point.clone(),
            point,
            far.clone(),
            far,
        ],
        vectors: [vec![1.0; d], zeros.clone(), zeros.clone(), zeros],
        state,
        reading,
        last,
        expected: vec![],
        out_high: vec![],
        out_low: vec![],
        verdict: vec![],
    }
}

/// The Rust's chain of this base, with and without auto adjust, that takes the score for loud: under
/// DISTANCE it has to have counted some.
fn chain_of(h: &Handed, r: &Reading) -> PredictorCorrector {
    let mut state = fresh::chain(0.0, h.state[ADJUST] == 1, r.base).state();
    if !r.is_height() {
        let mut t = BasicThresholder::of_numbers(state.basic_thresholder);
        for k in 0..12 {
            t.update_primary(1.0 + f64::from(k % 2));
        }
        state.basic_thresholder = t.numbers();
    }
    PredictorCorrector::of_state(state)
}

impl Call for AskedOfForest {
    const NUMBERS: &'static [u8] = &[RANGE, LENGTH, NOT_FINITE, VALUES_SEEN];

    type Left = Vec<usize>;

    fn sound(random: &mut Random) -> Self {
        let (shingle, base) = sizes(random);
        let last = last(random);
        let reading = reading(random, shingle, base, &last);
        AskedOfForest {
            handed: loud(state(random, base), reading, last),
            out: (0..ROOM).map(|k| 9000 + k).collect(),
        }
    }

    fn spoil(&mut self, random: &mut Random, number: u8) {
        let h = &mut self.handed;
        match number {
            RANGE => range(random, h),
            LENGTH => {
                let bytes = match random.below(4) {
                    0 => &mut h.state,
                    1 => &mut h.reading,
                    2 => &mut h.last,
                    _ => return resize(random, &mut self.out, 1),
                };
                resize(random, bytes, 0);
                if random.once_in(2) {
                    bytes.fill(255);
                }
            }
            NOT_FINITE => {
                let bad = random.of(&[f32::NAN, -f32::NAN, f32::INFINITY, f32::NEG_INFINITY]);
                let anomaly = h.last[ANOMALY] == 1;
                let bytes = match random.below(5) {
                    0 => &mut h.reading[15..19],
                    1 => &mut h.reading[19..23],
                    2 => &mut h.last[1..5],
                    3 if anomaly => &mut h.last[19..23],
                    _ => &mut h.last[5..9],
                };
                bytes.copy_from_slice(&bad.to_le_bytes());
            }
            _ => time(random, h),
        }
    }

    fn refusal(&self) -> u8 {
        let h = &self.handed;
        let lengths = [&h.state, &h.reading, &h.last].map(Vec::len);
        if out_of_range(h) {
            RANGE
        } else if lengths != [chain::STATE, READING, READING] || self.out.len() != ROOM {
            LENGTH
        } else if not_finite(h) {
            NOT_FINITE
        } else if out_of_time(h) {
            VALUES_SEEN
        } else {
            0
        }
    }

    fn ours(&mut self) -> u8 {
        let Handed {
            state,
            reading,
            last,
            ..
        } = &self.handed;
        // SAFETY: each slice is passed with its own length, and `out` is borrowed alone.
        unsafe {
            c::krcf_asked_of_forest(
                state.as_ptr(),
                state.len(),
                reading.as_ptr(),
                reading.len(),
                last.as_ptr(),
                last.len(),
                self.out.as_mut_ptr(),
                self.out.len(),
            )
        }
    }

    /// Gap and differencing by the lines of its detect_and_modify, the rest by the calls it makes.
    fn rust(&self) -> Vec<usize> {
        let r = Reading {
            score: LOUD,
            corrected_score: LOUD,
            ..decoded::reading(&self.handed)
        };
        let (_, calls) = r.judge(&mut chain_of(&self.handed, &r));
        let count = |wanted: fn(&Asked) -> bool| calls.iter().filter(|call| wanted(call)).count();
        let scores = count(|call| matches!(call, Asked::Score(_)));
        let densities = count(|call| matches!(call, Asked::Density(_)));
        let attributions = count(|call| matches!(call, Asked::Attribution(_)));
        let neighbours = count(|call| matches!(call, Asked::Neighbours(..)));
        // Of the point itself there is one score; of the corrected one there is an attribution.
        let (corrected, expected) = if r.is_height() {
            (scores - 1, attributions - 1)
        } else {
            (densities - 2, attributions)
        };
        let difference = r.method == DIFFERENCE || r.method == NORMALIZE_DIFFERENCE;
        vec![r.gap(), corrected, neighbours, expected, difference.into()]
    }

    fn left(&self) -> Vec<usize> {
        self.out.clone()
    }

    fn show(&self) -> String {
        let h = &self.handed;
        format!(
            "state {:?}, reading {:?}, last {:?}, out {:?}",
            h.state, h.reading, h.last, self.out
        )
    }
}
