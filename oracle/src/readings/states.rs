//! States of the whole chain: any numbers at all, and their bytes.

use rcflib::common::deviation::Deviation;
use rcflib::trcf::predictorcorrector::State;

use crate::bytes::Bytes;
use crate::chain::{self, ACTUAL, ADJUST, BASE, EXPECTED, RUN};
use crate::random::Random;
use crate::statistics::{self, countable};
use crate::thresholders;
use crate::values;

fn counted(random: &mut Random, mut d: Deviation) -> Deviation {
    if !countable(d.count) {
        d.count = random.below(30) as i32;
    }
    d
}

/// A state of any floats whose counts a reading takes.
pub fn arbitrary(random: &mut Random, auto_adjust: bool, base: usize) -> State {
    let (singles, doubles) = (values::list32(), values::list64());
    let mut t = thresholders::arbitrary(random, singles, doubles);
    if !countable(t.count) {
        t.count = random.below(30) as i32;
    }
    t.primary_deviation = counted(random, t.primary_deviation);
    t.secondary_deviation = counted(random, t.secondary_deviation);
    t.threshold_deviation = counted(random, t.threshold_deviation);
    let n = if auto_adjust { base } else { 0 };
    let mut list = || -> Vec<Deviation> {
        let one = |_| {
            let d = statistics::any(random, doubles);
            counted(random, d)
        };
        (0..n).map(one).collect()
    };
    let (deviations_actual, deviations_expected) = (list(), list());
    State {
        basic_thresholder: t,
        auto_adjust,
        run_length: (random.below(16_777_216) >> random.below(24)) as usize,
        deviations_actual,
        deviations_expected,
    }
}

/// A state put over bytes: those of entries that do not exist stay.
pub fn put(state: &State, base: usize, bytes: &mut [u8]) {
    state.basic_thresholder.clone().plain().put(bytes);
    bytes[ADJUST] = state.auto_adjust as u8;
    (state.run_length as i32).put(&mut bytes[RUN..]);
    (base as i32).put(&mut bytes[BASE..]);
    let lists = [
        (ACTUAL, &state.deviations_actual),
        (EXPECTED, &state.deviations_expected),
    ];
    for (start, list) in lists {
        for (k, d) in list.iter().enumerate() {
            let at = start + k * Deviation::SIZE;
            d.clone().plain().put(&mut bytes[at..]);
        }
    }
}

/// A state's bytes, those of entries that do not exist random.
pub fn bytes(random: &mut Random, state: &State, base: usize) -> Vec<u8> {
    let mut out: Vec<u8> = (0..chain::STATE).map(|_| random.word() as u8).collect();
    put(state, base, &mut out);
    out
}
