//! The newest row's place, a call that the Rust has not: held to document 01's words for every
//! pair of sizes around their ranges, lengths around D, and slices of every length to 16.

use crate::ours::c;
use crate::random::Random;
use crate::refusals::{LENGTH, RANGE};
use crate::tally::Tally;

const PLACE: usize = 8;

fn newest_row(point: &[f32], shingle: usize, base: usize, out: &mut [u8]) -> u8 {
    // SAFETY: each slice is passed with its own length, and `out` is borrowed alone.
    unsafe {
        c::krcf_newest_row(
            point.as_ptr(),
            point.len(),
            shingle,
            base,
            out.as_mut_ptr(),
            out.len(),
        )
    }
}

fn number(len: usize, shingle: usize, base: usize, room: usize) -> u8 {
    if !(1..=64).contains(&shingle) || !(1..=16).contains(&base) {
        RANGE
    } else if len != shingle * base || room != PLACE {
        LENGTH
    } else {
        0
    }
}

fn one(tally: &mut Tally, point: &[f32], shingle: usize, base: usize, room: usize) {
    let before = vec![0xa5; room];
    let mut out = before.clone();
    let answer = newest_row(point, shingle, base, &mut out);
    let wanted = number(point.len(), shingle, base, room);
    let case = || format!("newest row of {} by {shingle} and {base}", point.len());
    tally.compare(&answer, &wanted, case);
    let place = match wanted {
        0 => ((point.len() - base) as u64).to_le_bytes().to_vec(),
        _ => before,
    };
    tally.compare(&out[..], &place[..], case);
}

pub fn compare(tally: &mut Tally, random: &mut Random) {
    let point = vec![1.0; 1200];
    let ends = [usize::MAX, 1 << 32, 1 << 63];
    for shingle in (0..=66).chain(ends) {
        for base in (0..=18).chain(ends) {
            let d = shingle.wrapping_mul(base).min(1190);
            for len in [d, d + 1, d.saturating_sub(1), random.below(1200) as usize] {
                one(tally, &point[..len], shingle, base, PLACE);
                one(
                    tally,
                    &point[..len],
                    shingle,
                    base,
                    random.below(17) as usize,
                );
            }
        }
    }
}
