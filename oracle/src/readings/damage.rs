//! Ways to spoil what is handed to a judgment, by the number that refuses each.

use super::table::{
    counts, word, ANOMALY, ATTRIBUTION, AUTO_THRESHOLD, LAST_SEEN, READING, READING_BASE, SEEN,
    SHINGLE,
};
use crate::chain::{self, Handed, LAST_EXPECTED, NEIGHBOURS, POINT};
use crate::random::Random;
use crate::refusals::{COUNT, LENGTH, NOT_FINITE, RANGE, VALUES_SEEN};

/// The numbers that a judgment may be refused with.
pub const NUMBERS: [u8; 5] = [RANGE, LENGTH, NOT_FINITE, VALUES_SEEN, COUNT];

/// A number in four bytes.
pub fn put(bytes: &mut [u8], at: usize, n: usize) {
    bytes[at..at + 4].copy_from_slice(&(n as u32).to_le_bytes());
}

/// Spoils one thing so that the number applies. Of two damages the one with the larger number comes
/// first: what a later one needs to find in its place is then still there.
pub fn spoil(random: &mut Random, h: &mut Handed, number: u8) {
    match number {
        RANGE => range(random, h),
        LENGTH => length(random, h),
        NOT_FINITE => unbounded(random, h),
        VALUES_SEEN => time(random, h),
        _ => count(random, &mut h.state),
    }
}

/// A size or a code beyond its range, in a slice that has its length.
pub fn range(random: &mut Random, h: &mut Handed) {
    let above = random.of(&[2, 3, 255]);
    let method = 6 + random.below(250) as u8;
    let size = random.of(&[0, u32::MAX as usize]);
    let mut places: Vec<u64> = Vec::new();
    let (state, reading) = (h.state.len() == chain::STATE, h.reading.len() == READING);
    let base = if state {
        word(&h.state, chain::BASE)
    } else {
        1
    };
    let other = if base == 1 { 2 } else { base - 1 };
    places.extend(if reading { 0..5 } else { 0..0 });
    places.extend(if state { 5..7 } else { 0..0 });
    places.extend(if reading && state { 7..9 } else { 0..0 });
    places.extend(if h.last.len() == READING { 9..12 } else { 0..0 });
    match random.of(&places) {
        0 => put(&mut h.reading, SHINGLE, random.of(&[65, size])),
        1 => put(&mut h.reading, READING_BASE, random.of(&[17, size])),
        2 => h.reading[8] = above,
        3 => h.reading[9] = method,
        4 => h.reading[10] = above,
        5 => h.state[AUTO_THRESHOLD] = above,
        6 => h.state[chain::ADJUST] = above,
        7 => put(&mut h.state, chain::BASE, random.of(&[0, 17, size, other])),
        8 => put(&mut h.reading, READING_BASE, other),
        9 => h.last[0] = above,
        10 => h.last[ANOMALY] = above,
        _ if h.last[ANOMALY] == 1 => h.last[ATTRIBUTION] = above,
        _ => h.last[0] = above,
    }
}

/// Another length than a slice has: one more, one less, none, or any up to twice as long.
pub fn resize<T: Copy>(random: &mut Random, list: &mut Vec<T>, filling: T) {
    let n = list.len();
    let other = match random.below(4) {
        0 => 0,
        1 => n + 1,
        2 => n.saturating_sub(1),
        _ => random.below(2 * n as u64 + 1) as usize,
    };
    list.resize(if other == n { n + 1 } else { other }, filling);
}

/// One of the slices of another length. What it holds, codes too, is then not looked at.
fn length(random: &mut Random, h: &mut Handed) {
    let anomaly = h.last.len() == READING && h.last[ANOMALY] == 1;
    match random.below(19) as usize {
        NEIGHBOURS => crowd(random, h),
        k @ 0..=7 => {
            let read = !(LAST_EXPECTED..LAST_EXPECTED + 2).contains(&k) || anomaly;
            resize(random, &mut h.points[if read { k } else { POINT }], 1.0);
        }
        k @ 8..=11 => resize(random, &mut h.vectors[k - 8], 1.0),
        12 => resize(random, &mut h.expected, 1.0),
        13 => resize(random, &mut h.out_high, 1.0),
        14 => resize(random, &mut h.out_low, 1.0),
        15 => resize(random, &mut h.verdict, 0),
        k => {
            let bytes = match k {
                16 => &mut h.state,
                17 => &mut h.reading,
                _ => &mut h.last,
            };
            resize(random, bytes, 0);
            if random.once_in(2) {
                bytes.fill(255);
            }
        }
    }
}

/// Neighbours that are no whole points, or 257 of them.
fn crowd(random: &mut Random, h: &mut Handed) {
    let d = h.points[POINT].len().max(1);
    let list = &mut h.points[NEIGHBOURS];
    if d == 1 || (d < 32 && random.once_in(4)) {
        list.resize(257 * d, 1.0);
    } else {
        let more = 1 + random.below(d as u64 - 1) as usize;
        list.resize(list.len() / d * d + more, 1.0);
    }
}

/// A float that is not finite in one of the lent lists, in the reading or in the last descriptor.
fn unbounded(random: &mut Random, h: &mut Handed) {
    let bad = random.of(&[f32::NAN, f32::INFINITY, f32::NEG_INFINITY]);
    let anomaly = h.last[ANOMALY] == 1;
    match random.below(17) as usize {
        k @ 0..=7 => {
            let read = !(LAST_EXPECTED..LAST_EXPECTED + 2).contains(&k) || anomaly;
            let k = if h.points[k].is_empty() || !read {
                POINT
            } else {
                k
            };
            let at = random.below(h.points[k].len() as u64) as usize;
            h.points[k][at] = bad;
        }
        k @ 8..=11 => {
            let list = &mut h.vectors[k - 8];
            let at = random.below(list.len() as u64) as usize;
            list[at] = bad as f64;
        }
        k => {
            let bytes = match k {
                12 => &mut h.reading[15..19],
                13 => &mut h.reading[19..23],
                14 => &mut h.last[1..5],
                15 if anomaly => &mut h.last[19..23],
                _ => &mut h.last[5..9],
            };
            bytes.copy_from_slice(&bad.to_le_bytes());
        }
    }
}

/// A number of values seen that is 0, too large or not later than the last anomaly's.
pub fn time(random: &mut Random, h: &mut Handed) {
    let seen = word(&h.last, LAST_SEEN);
    let before = random.below(seen as u64 + 1) as usize;
    let earlier = random.of(&[seen, before]);
    let late = random.of(&[16_777_217, u32::MAX as usize]);
    if h.last[ANOMALY] == 1 && random.once_in(2) {
        put(&mut h.reading, SEEN, earlier);
    } else {
        put(&mut h.reading, SEEN, random.of(&[0, late]));
    }
}

/// The run length or one of the counts that exist beyond its range.
pub fn count(random: &mut Random, state: &mut [u8]) {
    let n = random.of(&[16_777_216, i32::MAX as usize, 1 << 31, u32::MAX as usize]);
    let at = random.of(&counts(state));
    put(state, at, n);
}
