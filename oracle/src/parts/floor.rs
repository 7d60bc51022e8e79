//! `f32::floor` on every pattern there is.

use crate::ours;
use crate::random::Random;
use crate::tally::Tally;

pub fn compare(tally: &mut Tally, _: &mut Random) {
    for bits in 0..=u32::MAX {
        let x = f32::from_bits(bits);
        tally.compare(&ours::floor(x), &x.floor(), || format!("floor {bits:08x}"));
    }
}
