//! Drawers in a pool: each judges as a watch by itself, refusals come in their order and change no
//! byte, and bytes that break a rule are named by it.

mod asked;
mod readings;

use asked::Scripted;
use readings::{after_anomaly, fresh, quiet, raised};
use withdrawal_watch::{
    NotJudged, Pool, Reading, Refusal, Refused, Site, Watch, Withdrawal, POOL_RECORDS,
};

/// Where a record begins, and where it has its drawer's number and state.
const fn record(k: usize) -> usize {
    32 + 2048 * (k - 1)
}

const DRAWER: usize = 4;
const STATE: usize = 8;

fn of_drawers(drawers: impl IntoIterator<Item = u32>) -> Pool {
    let mut pool = Pool::new();
    for drawer in drawers {
        pool.open(drawer, 0.01, drawer % 2 == 0, 1).expect("room");
    }
    pool
}

fn full() -> Pool {
    of_drawers(1..=POOL_RECORDS as u32)
}

#[test]
fn an_empty_pool() {
    let pool = Pool::default();
    assert!(pool.is_empty() && pool.list().is_empty() && !pool.contains(1));
    let bytes = pool.as_bytes();
    assert_eq!(bytes[..12], [0, 0, 0, 0, 0, 0, 0, 0, 1, 0, 0, 0]);
    for k in 1..=30 {
        assert_eq!(bytes[record(k)], (k % 30) as u8 + (k < 30) as u8);
    }
    assert_eq!(format!("{pool:?}"), "Pool { drawers: [], .. }");
}

/// The newest comes first; a removed drawer's record is the next to be used.
#[test]
fn opened_and_removed() {
    let mut pool = of_drawers([1, 2, 3]);
    pool.remove(2).unwrap();
    assert_eq!(pool.list(), [3, 1]);
    assert!(!pool.contains(2) && pool.len() == 2);
    pool.open(65_535, 0.5, true, 16).unwrap();
    assert_eq!(pool.list(), [65_535, 3, 1]);
    assert_eq!(
        pool.as_bytes()[record(2) + DRAWER..][..4],
        [0xff, 0xff, 0, 0]
    );
    for (drawer, left) in [(65_535, &[3, 1][..]), (1, &[3]), (3, &[])] {
        pool.remove(drawer).unwrap();
        assert_eq!(pool.list(), left);
    }
}

/// Thirty drawers beside thirty watches: the same verdicts and states, whatever the others do.
#[test]
fn judged_as_by_themselves() {
    let mut pool = full();
    let mut alone: Vec<Watch> = (1..=30).map(|k| fresh(k % 2 == 0)).collect();
    for turn in 0..40 {
        let k = (7 * turn + turn / 4) % 30;
        let drawer = k as u32 + 1;
        let reading = [quiet(), raised(), after_anomaly(), Reading::default()][turn % 4];
        let horizon = turn as f32 / 32.0;
        assert_eq!(pool.judge(drawer, &reading), alone[k].judge(&reading));
        let set = alone[k].set_horizon(horizon);
        assert_eq!(pool.set_horizon(drawer, horizon), set);
        pool.set_z_factor(drawer, 3.0).unwrap();
        alone[k].set_z_factor(3.0).unwrap();
    }
    for (drawer, watch) in (1..).zip(&alone) {
        let pooled = pool.watch(drawer).unwrap();
        assert_eq!(pooled.state_bytes(), watch.state_bytes());
        assert_eq!(pooled.primary_mean(), watch.primary_mean());
    }
}

/// What each call of a pool answers for a drawer: its refusals' numbers, or 0.
fn answers(pool: &mut Pool, drawer: u32, reading: &Reading) -> [u8; 7] {
    let number = |done: Result<(), Refused>| done.map_or_else(|e| e.number(), |_| 0);
    [
        number(pool.judge(drawer, reading).map(drop)),
        number(pool.set_z_factor(drawer, 2.0)),
        number(pool.set_lower_threshold(drawer, 2.0)),
        number(pool.set_initial_threshold(drawer, 2.0)),
        number(pool.set_horizon(drawer, 2.0)),
        number(pool.watch(drawer).map(drop)),
        number(pool.remove(drawer)),
    ]
}

/// A drawer that is not there comes before all that is wrong with a call.
#[test]
fn drawers_that_are_not_there() {
    let mut pool = of_drawers([5, 6]);
    let before = *pool.as_bytes();
    for drawer in [0, 1, 4, 7, 65_535, 65_536, u32::MAX] {
        for reading in [raised(), Reading::default()] {
            assert_eq!(answers(&mut pool, drawer, &reading), [11; 7]);
            assert_eq!(pool.as_bytes(), &before);
        }
    }
    assert_eq!(
        answers(&mut pool, 5, &Reading::default()),
        [2, 0, 0, 0, 7, 0, 0]
    );
}

/// 11, then 12, then 1, then 2.
#[test]
fn openings_that_are_refused() {
    let refusals = |mut pool: Pool, drawer| {
        let before = *pool.as_bytes();
        let made = [(1.0, 17), (0.01, 17), (0.01, 16)].map(|(discount, base)| {
            let opened = pool.open(drawer, discount, true, base);
            let refusal = opened.map_or_else(|why| why.refusal(), |()| Refusal::Other(0));
            assert!(refusal == Refusal::Other(0) || pool.as_bytes() == &before);
            refusal
        });
        made.map(Refusal::number)
    };
    assert_eq!(refusals(full(), 30), [11; 3]);
    assert_eq!(refusals(full(), 0), [11; 3]);
    assert_eq!(refusals(full(), 31), [12; 3]);
    assert_eq!(refusals(of_drawers([3]), 3), [11; 3]);
    assert_eq!(refusals(of_drawers([3]), 65_536), [11; 3]);
    assert_eq!(refusals(of_drawers([3]), 4), [1, 2, 0]);
}

/// A setting that the drawer has already writes nothing, so that a NaN's other bits stay.
#[test]
fn the_same_setting_is_not_written() {
    let last_score = record(1) + STATE + 12;
    let mut bytes = *of_drawers([9]).as_bytes();
    bytes[last_score..last_score + 4].copy_from_slice(&[1, 2, 0xc3, 0x7f]);
    let mut pool = Pool::from_bytes(&bytes).unwrap();
    pool.set_z_factor(9, 2.5).unwrap();
    pool.set_initial_threshold(9, 1.5).unwrap();
    assert_eq!(pool.as_bytes(), &bytes);
    pool.set_initial_threshold(9, 1.25).unwrap();
    assert_eq!(
        pool.as_bytes()[last_score..last_score + 4],
        [0, 0, 0xc0, 0x7f]
    );
}

/// A pool of drawers 1, 2 and 3 with some of its bytes changed.
fn changed(changes: &[(usize, u32)]) -> Vec<u8> {
    let mut bytes = of_drawers([1, 2, 3]).as_bytes().to_vec();
    for (at, n) in changes {
        bytes[*at..at + 4].copy_from_slice(&n.to_le_bytes());
    }
    bytes
}

/// What is changed in a pool, and below in the same order what is said of it.
const BROKEN: [(usize, u32); 12] = [
    (4, 31),
    (record(2), 2),
    (record(30), 20),
    (record(4), u32::MAX),
    (record(30), 1),
    (8, 5),
    (0, 30),
    (record(2) + DRAWER, 0),
    (record(1) + DRAWER, 65_536),
    (record(1) + DRAWER, 3),
    (record(2) + STATE + 124, 2),
    (record(3) + STATE + 149, 255),
];

const SAID: [&str; 12] = [
    "used chain: leads to record 31, not 1 to 30",
    "used chain: comes to record 2 again",
    "free chain: comes to record 20 again",
    "free chain: leads to record 4,294,967,295, not 1 to 30",
    "record 1: in both chains",
    "record 4: in neither chain",
    "count: 30, where the used chain's length is 3",
    "record 2: drawer 0, not 1 to 65,535",
    "record 1: drawer 65,536, not 1 to 65,535",
    "records 3 and 1: both have drawer 3",
    "record 2: auto threshold is 2, not 1 (yes) or 0 (no)",
    "record 3: auto adjust is 255, not 1 (yes) or 0 (no)",
];

#[test]
fn pools_that_break_a_rule() {
    for (change, said) in BROKEN.into_iter().zip(SAID) {
        let why = Pool::from_bytes(&changed(&[change])).unwrap_err();
        assert_eq!(why.to_string(), format!("refusal 13: {said}"));
        assert_eq!(why.refusal(), Refusal::Pool);
    }
    for length in [0, 61_471, 61_473] {
        let why = Pool::from_bytes(&vec![0; length]).unwrap_err();
        assert_eq!(why.number(), 13);
        assert!(why.about().ends_with("bytes, not 61,472"), "{why}");
    }
}

/// Spare bytes, what free records hold, and states that no judgment takes are no reason against a pool.
#[test]
fn pools_that_break_no_rule() {
    let base = record(2) + STATE + 154;
    let bytes = changed(&[
        (12, 7),
        (28, 7),
        (record(1) + 1318, 7),
        (record(30) + DRAWER, 1),
        (record(30) + STATE + 124, 7),
        (base, 17),
    ]);
    let mut pool = Pool::from_bytes(&bytes).unwrap();
    assert_eq!(pool.list(), [3, 2, 1]);
    assert_eq!(pool.judge(2, &quiet()).unwrap_err().number(), 2);
    assert_eq!(pool.watch(2).unwrap_err().number(), 2);
    assert!(pool.judge(1, &quiet()).is_ok());
    assert_eq!(pool.as_bytes()[record(1) + 1318], 7);
}

/// A site's drawer that is not there is refused before the forest is asked.
#[test]
fn a_site_without_the_drawer() {
    let reading = raised();
    let withdrawal = Withdrawal {
        shingle_size: 4,
        base_dimension: 1,
        values_seen: 5,
        rcf_point: reading.rcf_point,
        scale: reading.scale,
        shift: reading.shift,
        difference_deviations: reading.difference_deviations,
        ..Withdrawal::default()
    };
    let mut site = Site::new();
    site.open(7, 0.01, false, 1).unwrap();
    let forest = Scripted::raised();
    let said = site.judge(8, &withdrawal, &forest);
    assert!(matches!(said, Err(NotJudged::Refused(why)) if why.refusal() == Refusal::Drawer));
    assert!(forest.calls().is_empty());
    assert!(site.judge(7, &withdrawal, &forest).is_ok());
    assert!(site.drawer(7).unwrap().last_anomaly().is_some());
    site.remove(7).unwrap();
    site.open(7, 0.01, false, 1).unwrap();
    assert!(site.drawer(7).unwrap().last_anomaly().is_none());
}
