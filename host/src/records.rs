//! What the host reads of a pool's bytes: the drawers' states, and which rule bytes break that 13
//! refuses. The table of them is in words in `include/withdrawal_watch.h`.

use std::ops::RangeInclusive;

use crate::bytes::take;
use crate::state::{FLAGS, STATE_BYTES};
use crate::words::grouped;

/// How many bytes a pool has: a header and its records.
pub const POOL_BYTES: usize = HEADER_BYTES + POOL_RECORDS * RECORD_BYTES;

/// How many records there are, each with room for a drawer.
pub const POOL_RECORDS: usize = 30;

/// A drawer's number.
pub const DRAWERS: RangeInclusive<u32> = 1..=65_535;

const HEADER_BYTES: usize = 32;
const RECORD_BYTES: usize = 2048;

/// Where the header has its count and the first record of each chain.
const COUNT: usize = 0;
const FIRST_USED: usize = 4;
const FIRST_FREE: usize = 8;

/// Where a record has its next one, its drawer's number and state.
const NEXT: usize = 0;
const DRAWER: usize = 4;
const STATE: usize = 8;

type Bytes = [u8; POOL_BYTES];

/// Where a record begins; they are counted from 1.
fn place(record: usize) -> usize {
    HEADER_BYTES + RECORD_BYTES * (record - 1)
}

fn word(pool: &Bytes, at: usize) -> usize {
    u32::from_le_bytes(take(pool, at)) as usize
}

fn drawer_in(pool: &Bytes, record: usize) -> u32 {
    u32::from_le_bytes(take(pool, place(record) + DRAWER))
}

/// The records of a chain in order, or how it goes astray.
fn chain(pool: &Bytes, name: &str, first: usize) -> Result<Vec<usize>, String> {
    let mut met = Vec::new();
    let mut record = word(pool, first);
    while record != 0 {
        if record > POOL_RECORDS {
            let record = grouped(record);
            return Err(format!(
                "{name} chain: leads to record {record}, not 1 to 30"
            ));
        }
        if met.contains(&record) {
            return Err(format!("{name} chain: comes to record {record} again"));
        }
        met.push(record);
        record = word(pool, place(record) + NEXT);
    }
    Ok(met)
}

/// A drawer's state, if the used chain has the drawer.
pub fn state_of(pool: &Bytes, drawer: u32) -> Option<[u8; STATE_BYTES]> {
    let used = chain(pool, "used", FIRST_USED).ok()?;
    let record = used.into_iter().find(|k| drawer_in(pool, *k) == drawer)?;
    Some(take(pool, place(record) + STATE))
}

/// A rule of the pool's that the bytes break, in plain words; none if there is no such rule.
pub fn broken_rule(bytes: &[u8]) -> Option<String> {
    let Ok(pool) = bytes.try_into() else {
        let (found, wanted) = (grouped(bytes.len()), grouped(POOL_BYTES));
        return Some(format!("length: {found} bytes, not {wanted}"));
    };
    rules(pool).err()
}

fn rules(pool: &Bytes) -> Result<(), String> {
    let used = chain(pool, "used", FIRST_USED)?;
    let free = chain(pool, "free", FIRST_FREE)?;
    for record in 1..=POOL_RECORDS {
        match (used.contains(&record), free.contains(&record)) {
            (true, true) => return Err(format!("record {record}: in both chains")),
            (false, false) => return Err(format!("record {record}: in neither chain")),
            _ => {}
        }
    }
    let (count, length) = (word(pool, COUNT), used.len());
    if count != length {
        let count = grouped(count);
        return Err(format!(
            "count: {count}, where the used chain's length is {length}"
        ));
    }
    numbers(pool, &used)?;
    used.into_iter().try_for_each(|record| flags(pool, record))
}

fn numbers(pool: &Bytes, used: &[usize]) -> Result<(), String> {
    for (k, record) in used.iter().enumerate() {
        let drawer = drawer_in(pool, *record);
        let shown = grouped(drawer as usize);
        if !DRAWERS.contains(&drawer) {
            return Err(format!("record {record}: drawer {shown}, not 1 to 65,535"));
        }
        let before = used[..k].iter().find(|k| drawer_in(pool, **k) == drawer);
        if let Some(other) = before {
            return Err(format!(
                "records {other} and {record}: both have drawer {shown}"
            ));
        }
    }
    Ok(())
}

fn flags(pool: &Bytes, record: usize) -> Result<(), String> {
    for (at, name) in FLAGS {
        let byte = pool[place(record) + STATE + at];
        if byte > 1 {
            return Err(format!(
                "record {record}: {name} is {byte}, not 1 (yes) or 0 (no)"
            ));
        }
    }
    Ok(())
}
