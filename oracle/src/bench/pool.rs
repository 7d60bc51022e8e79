//! Judging in a pool of thirty drawers against judging the same state's bytes alone, on the same
//! inputs. A pass judges each drawer of some pools once, from the newest drawer to the oldest.

use std::hint::black_box;

use rcflib::trcf::types::ScoringStrategy;

use super::judging::Row;
use super::timing::{pass, pooled, pooled_heading};
use crate::chain::{Handed, STATE};
use crate::pool::calls::{listing, Call};
use crate::pool::{place, POOL, RECORDS, STATE as WITHIN};
use crate::random::Random;

/// How many pools a pass goes through.
const POOLS: usize = 4;

const ROWS: [Row; 2] = [
    Row {
        size: (1, 1),
        strategy: ScoringStrategy::DISTANCE,
        raised: false,
        neighbours: 0,
    },
    Row {
        size: (8, 1),
        strategy: ScoringStrategy::EXPECTED_INVERSE_HEIGHT,
        raised: false,
        neighbours: 0,
    },
];

/// A full pool, each of its drawers in this state, with a base of 1.
fn full(state: &[u8]) -> Vec<u8> {
    let mut pool = vec![0; POOL];
    assert_eq!(Call::LayOut.ours(&mut pool), 0);
    for k in 0..RECORDS as u32 {
        let mut open = Call::Open {
            drawer: 65_535 - 2_000 * k,
            discount: 0.01,
            adjust: 0,
            base: 1,
        };
        assert_eq!(open.ours(&mut pool), 0);
    }
    for record in 1..=RECORDS {
        let at = place(record) + WITHIN;
        pool[at..at + STATE].copy_from_slice(state);
    }
    pool
}

/// Both ways answer 0, say the same and leave the same state.
fn check(row: &Row, pool: &[u8], drawers: &[u32], handed: &Handed) {
    let mut alone = handed.clone();
    assert_eq!(alone.judge(), 0, "{}", row.name());
    for (k, drawer) in drawers.iter().enumerate() {
        let (mut pool, mut h) = (pool.to_vec(), handed.clone());
        assert_eq!(h.judge_in(&mut pool, *drawer), 0, "{}", row.name());
        let at = place(RECORDS - k) + WITHIN;
        assert_eq!(pool[at..at + STATE], alone.state);
        assert_eq!(h.verdict, alone.verdict);
    }
}

pub fn run(random: &mut Random) {
    pooled_heading();
    for row in ROWS {
        let handed = row.prepared(random).handed;
        let pool = full(&handed.state);
        let (answer, drawers) = listing(&pool);
        assert_eq!(answer, 0);
        check(&row, &pool, &drawers, &handed);
        let calls = POOLS * RECORDS;
        let alone = || {
            let mut batch = vec![handed.clone(); calls];
            pass(calls, || {
                for h in &mut batch {
                    black_box(h.judge());
                }
            })
        };
        let in_pools = || {
            let mut batch = vec![handed.clone(); calls];
            let mut pools = vec![pool.clone(); POOLS];
            let drawn = pools.iter_mut().zip(batch.chunks_mut(RECORDS));
            pass(calls, || {
                for (pool, batch) in drawn {
                    for (h, drawer) in batch.iter_mut().zip(&drawers) {
                        black_box(h.judge_in(pool, *drawer));
                    }
                }
            })
        };
        pooled(&row.name(), alone, in_pools);
    }
}
