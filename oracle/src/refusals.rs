//! Refusals: documents 01's and 02's numbers, and that a refused call leaves its buffer as it was.

use crate::tally::Tally;

pub const DISCOUNT: u8 = 1;
pub const RANGE: u8 = 2;
pub const LENGTH: u8 = 3;
pub const NOT_FINITE: u8 = 4;
pub const VALUES_SEEN: u8 = 5;
pub const COUNT: u8 = 6;
pub const HORIZON: u8 = 7;
pub const BLOCKS: u8 = 8;
pub const DRAWER: u8 = 11;
pub const FULL: u8 = 12;
pub const POOL: u8 = 13;

/// A call on a buffer of a length that is refused, with the given number, the buffer and the bytes
/// around it left as they were.
pub fn refused(
    tally: &mut Tally,
    len: usize,
    number: u8,
    what: &str,
    call: impl Fn(&mut [u8]) -> u8,
) {
    let before: Vec<u8> = (0..len + 16).map(|k| k as u8 ^ 0xa5).collect();
    let mut room = before.clone();
    let refusal = call(&mut room[8..8 + len]);
    let case = || format!("{what} with a buffer of {len}");
    tally.compare(&[refusal][..], &[number][..], case);
    tally.compare(&room[..], &before[..], case);
}
