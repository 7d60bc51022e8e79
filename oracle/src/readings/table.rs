//! Document 01's table for a judgment over C, worked out from what is handed over.

use crate::bytes::Bytes;
use crate::chain::{self, Handed};
use crate::refusals::{COUNT, LENGTH, NOT_FINITE, RANGE, VALUES_SEEN};

/// Lengths of a reading and of the last descriptor.
pub const READING: usize = 23;

/// Where they have what the table looks at.
pub const SHINGLE: usize = 0;
pub const READING_BASE: usize = 4;
pub const SEEN: usize = 11;
pub const ANOMALY: usize = 9;
pub const LAST_SEEN: usize = 14;
pub const ATTRIBUTION: usize = 18;

/// The thresholder's flag and its counts.
pub const AUTO_THRESHOLD: usize = 124;
pub const COUNTS: [usize; 4] = [4, 48, 84, 120];

pub fn word(bytes: &[u8], at: usize) -> usize {
    i32::get(&bytes[at..]) as u32 as usize
}

/// A code or a size out of its range, in the slices that have their length.
pub fn out_of_range(h: &Handed) -> bool {
    let (state, reading, last) = (&h.state, &h.reading, &h.last);
    let (whole_state, whole_reading) = (state.len() == chain::STATE, reading.len() == READING);
    let mut bad = false;
    if whole_state {
        bad |= state[AUTO_THRESHOLD] > 1 || state[chain::ADJUST] > 1;
        bad |= !(1..=16).contains(&word(state, chain::BASE));
    }
    if whole_reading {
        bad |= reading[8] > 1 || reading[9] > 5 || reading[10] > 1;
        let (shingle, base) = (word(reading, SHINGLE), word(reading, READING_BASE));
        bad |= !(1..=64).contains(&shingle) || !(1..=16).contains(&base);
        bad |= whole_state && base != word(state, chain::BASE);
    }
    if last.len() == READING {
        bad |= last[0] > 1 || last[ANOMALY] > 1;
        bad |= last[ANOMALY] == 1 && last[ATTRIBUTION] > 1;
    }
    bad
}

/// A slice that is not of its length; the sizes are in range.
fn of_another_length(h: &Handed) -> bool {
    let bytes = [
        h.state.len(),
        h.reading.len(),
        h.last.len(),
        h.verdict.len(),
    ];
    if bytes != [chain::STATE, READING, READING, chain::VERDICT] {
        return true;
    }
    let base = word(&h.reading, READING_BASE);
    let d = word(&h.reading, SHINGLE) * base;
    let [point, scale, shift, deviations, expected, anomalous, median, neighbours] =
        h.points.each_ref().map(Vec::len);
    let [high, low, ideal_high, ideal_low] = h.vectors.each_ref().map(Vec::len);
    let out = [h.expected.len(), h.out_high.len(), h.out_low.len()];
    let whole = [point, median, high, low, ideal_high, ideal_low];
    let anomaly = h.last[ANOMALY] == 1;
    whole.iter().chain(&out).any(|&n| n != d)
        || [scale, shift, deviations].iter().any(|&n| n != base)
        || (anomaly && (expected != d || anomalous != d))
        || neighbours % d != 0
        || neighbours / d > 256
}

/// A float that is not finite; behind a no the anomaly's are not looked at.
pub fn not_finite(h: &Handed) -> bool {
    let single = |bytes: &[u8], at: usize| f32::get(&bytes[at..]).is_finite();
    let anomaly = h.last[ANOMALY] == 1;
    let behind = |k: usize| k == chain::LAST_EXPECTED || k == chain::LAST_EXPECTED + 1;
    let numbers = single(&h.reading, 15)
        && single(&h.reading, 19)
        && single(&h.last, 1)
        && single(&h.last, 5)
        && (!anomaly || single(&h.last, 19));
    let points = h.points.iter().enumerate();
    let mut read = points.filter(|&(k, _)| anomaly || !behind(k));
    !(numbers
        && read.all(|(_, list)| list.iter().all(|x| x.is_finite()))
        && h.vectors.iter().flatten().all(|x| x.is_finite()))
}

pub fn out_of_time(h: &Handed) -> bool {
    let seen = word(&h.reading, SEEN);
    let anomaly = h.last[ANOMALY] == 1;
    !(1..=16_777_216).contains(&seen) || (anomaly && seen <= word(&h.last, LAST_SEEN))
}

/// Where run length and the counts that exist stand.
pub fn counts(state: &[u8]) -> Vec<usize> {
    let existing = match state[chain::ADJUST] {
        1 => word(state, chain::BASE),
        _ => 0,
    };
    let listed =
        (0..existing).flat_map(|k| [chain::ACTUAL, chain::EXPECTED].map(|at| at + k * 36 + 32));
    COUNTS
        .into_iter()
        .chain([chain::RUN])
        .chain(listed)
        .collect()
}

pub fn out_of_count(state: &[u8]) -> bool {
    let places = counts(state);
    places.iter().any(|&at| word(state, at) > 16_777_215)
}

/// The smallest number that applies, or 0.
pub fn refusal(h: &Handed) -> u8 {
    if out_of_range(h) {
        RANGE
    } else if of_another_length(h) {
        LENGTH
    } else if not_finite(h) {
        NOT_FINITE
    } else if out_of_time(h) {
        VALUES_SEEN
    } else if out_of_count(&h.state) {
        COUNT
    } else {
        0
    }
}
