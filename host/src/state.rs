//! What the host reads of a state's bytes: how long they are, and where some numbers stand. All of
//! them are in the crate `layout`, and in words in `include/withdrawal_watch.h`.

use crate::bytes::take;

/// How many bytes a watch's state has.
pub const STATE_BYTES: usize = 1310;

/// The first bytes are the thresholder's.
pub const THRESHOLDER_BYTES: usize = 149;

/// The largest count that a reading is accepted with.
pub const LARGEST_COUNT: i64 = 16_777_215;

/// The largest `values_seen`.
pub const LARGEST_SEEN: usize = 16_777_216;

/// How many bytes a statistic has.
pub const STATISTIC_BYTES: usize = 36;

/// Where it has its count.
const COUNT_WITHIN: usize = 32;

/// Where the thresholder has its primary statistic, that of the scores.
const PRIMARY: usize = 16;

const AUTO_THRESHOLD: usize = 124;
const AUTO_ADJUST: usize = THRESHOLDER_BYTES;
const RUN_LENGTH: usize = AUTO_ADJUST + 1;
const BASE_DIMENSION: usize = RUN_LENGTH + 4;
const ACTUAL: usize = BASE_DIMENSION + 4;
const EXPECTED: usize = ACTUAL + 16 * STATISTIC_BYTES;

/// Where a state has a yes/no, each with its name.
pub const FLAGS: [(usize, &str); 2] = [
    (AUTO_THRESHOLD, "auto threshold"),
    (AUTO_ADJUST, "auto adjust"),
];

fn auto_adjust(bytes: &[u8; STATE_BYTES]) -> bool {
    bytes[AUTO_ADJUST] == 1
}

pub fn base_dimension(bytes: &[u8; STATE_BYTES]) -> usize {
    u32::from_le_bytes(take(bytes, BASE_DIMENSION)) as usize
}

pub fn primary_statistic(bytes: &[u8; STATE_BYTES]) -> [u8; STATISTIC_BYTES] {
    take(bytes, PRIMARY)
}

/// The counts that exist, each with its name.
pub fn counts(bytes: &[u8; STATE_BYTES]) -> Vec<(String, i64)> {
    let signed = |at: usize| i64::from(i32::from_le_bytes(take(bytes, at)));
    let mut all = vec![
        ("count of the scores".to_string(), signed(4)),
        ("count of the primary statistic".to_string(), signed(48)),
        ("count of the secondary statistic".to_string(), signed(84)),
        ("count of the third statistic".to_string(), signed(120)),
        (
            "run length".to_string(),
            i64::from(u32::from_le_bytes(take(bytes, RUN_LENGTH))),
        ),
    ];
    let existing = if auto_adjust(bytes) {
        base_dimension(bytes).min(16)
    } else {
        0
    };
    for (start, kind) in [(ACTUAL, "actual"), (EXPECTED, "expected")] {
        let each = (0..existing).map(|k| {
            let at = start + k * STATISTIC_BYTES + COUNT_WITHIN;
            (format!("count of {kind} values, number {k}"), signed(at))
        });
        all.extend(each);
    }
    all
}
