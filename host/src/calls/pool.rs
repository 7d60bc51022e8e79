//! The calls on a pool.

use super::Buffers;
use crate::bytes;
use crate::declarations as c;
use crate::reading::Reading;
use crate::records::POOL_RECORDS;
use crate::refusal::Refusal;

pub fn lay_out(pool: &mut [u8]) -> Result<(), Refusal> {
    // SAFETY: `pool` is borrowed alone, and its own length is passed.
    let number = unsafe { c::krcf_pool_lay_out(pool.as_mut_ptr(), pool.len()) };
    Refusal::answered(number)
}

pub fn open(
    pool: &mut [u8],
    drawer: u32,
    discount: f64,
    auto_adjust: bool,
    base_dimension: usize,
) -> Result<(), Refusal> {
    let adjust = auto_adjust.into();
    // SAFETY: `pool` is borrowed alone, and its own length is passed.
    let number = unsafe {
        let (start, len) = (pool.as_mut_ptr(), pool.len());
        c::krcf_pool_open(start, len, drawer, discount, adjust, base_dimension)
    };
    Refusal::answered(number)
}

pub fn remove(pool: &mut [u8], drawer: u32) -> Result<(), Refusal> {
    // SAFETY: `pool` is borrowed alone, and its own length is passed.
    let number = unsafe { c::krcf_pool_remove(pool.as_mut_ptr(), pool.len(), drawer) };
    Refusal::answered(number)
}

/// The drawers' numbers, then zeros.
pub fn list(pool: &[u8]) -> Result<[u32; POOL_RECORDS], Refusal> {
    let mut numbers = [0; POOL_RECORDS];
    // SAFETY: `pool` is borrowed for reading, `numbers` alone, and each goes with its own length.
    let number = unsafe {
        c::krcf_pool_list(
            pool.as_ptr(),
            pool.len(),
            numbers.as_mut_ptr(),
            numbers.len(),
        )
    };
    Refusal::answered(number)?;
    Ok(numbers)
}

setters! {
    set_z_factor = krcf_pool_set_z_factor(drawer: u32);
    set_lower_threshold = krcf_pool_set_lower_threshold(drawer: u32);
    set_initial_threshold = krcf_pool_set_initial_threshold(drawer: u32);
    set_horizon = krcf_pool_set_horizon(drawer: u32);
}

pub fn judge(pool: &mut [u8], drawer: u32, reading: &Reading, out: Buffers) -> Result<(), Refusal> {
    judgment!(krcf_pool_detect_and_modify, pool, [drawer], reading, out)
}
