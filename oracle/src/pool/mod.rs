//! A pool of drawers, document 02's chest: our C functions on its bytes, a model of it, and ways to
//! change its bytes.

pub mod calls;
pub mod changes;
pub mod model;

use crate::bytes::Bytes;

/// How many bytes a pool has, how many records, and where its header has what.
pub const POOL: usize = 61_472;
pub const RECORDS: usize = 30;
pub const COUNT: usize = 0;
pub const FIRST_USED: usize = 4;
pub const FIRST_FREE: usize = 8;
pub const HEADER: usize = 32;

/// How many bytes a record has, and where it has what.
pub const RECORD: usize = 2048;
pub const NEXT: usize = 0;
pub const NUMBER: usize = 4;
pub const STATE: usize = 8;

/// Where a record begins; they are counted from 1.
pub fn place(record: usize) -> usize {
    HEADER + RECORD * (record - 1)
}

pub fn word(bytes: &[u8], at: usize) -> u32 {
    i32::get(&bytes[at..]) as u32
}

pub fn put(bytes: &mut [u8], at: usize, n: u32) {
    bytes[at..at + 4].copy_from_slice(&n.to_le_bytes());
}
