//! A pool as plain structures: two lists of records and what each record holds. States are made and
//! changed by our calls on a state alone, which other parts compare with the Rust.

use std::collections::BTreeSet;

use rcflib::common::deviation::Deviation;

use super::{
    place, put, word, COUNT, FIRST_FREE, FIRST_USED, HEADER, NEXT, NUMBER, POOL, RECORD, RECORDS,
    STATE,
};
use crate::chain::{self, state_of, Handed};
use crate::readings::table::AUTO_THRESHOLD;
use crate::refusals;

/// What a record holds beside its place in a chain.
#[derive(Clone)]
struct Record {
    drawer: u32,
    /// The state, and the spare bytes behind it.
    held: Vec<u8>,
}

#[derive(Clone)]
pub struct Model {
    /// The header's bytes behind its three numbers.
    spare: Vec<u8>,
    /// The records of each chain, in order.
    used: Vec<usize>,
    free: Vec<usize>,
    records: Vec<Record>,
}

/// The state's floats, and its whole numbers and yes/nos, as far as they exist.
fn numbers(state: &[u8]) -> (Vec<f64>, Vec<usize>) {
    let s = state_of(state);
    let t = &s.basic_thresholder;
    let singles = [
        t.elasticity,
        t.score_differencing,
        t.last_score,
        t.absolute_threshold,
        t.absolute_score_fraction,
        t.lower_threshold,
        t.factor_adjustment_threshold,
        t.initial_threshold,
        t.z_factor,
    ];
    let own = [
        &t.primary_deviation,
        &t.secondary_deviation,
        &t.threshold_deviation,
    ];
    let lists = s.deviations_actual.iter().chain(&s.deviations_expected);
    let mut floats: Vec<f64> = singles.map(f64::from).to_vec();
    let (adjust, base) = (s.auto_adjust as usize, word(state, chain::BASE) as usize);
    let count = t.count as usize;
    let mut whole = vec![count, t.auto_threshold as usize, adjust, s.run_length, base];
    for d in own.into_iter().chain(lists) {
        let Deviation {
            discount,
            weight,
            sum_squared,
            sum,
            count,
        } = d;
        floats.extend([discount, weight, sum_squared, sum]);
        whole.push(*count as usize);
    }
    (floats, whole)
}

/// Whether all numbers of two states compare equal, NaN with NaN.
pub fn is_same_state(a: &[u8], b: &[u8]) -> bool {
    let ((xs, ms), (ys, ns)) = (numbers(a), numbers(b));
    let same = |(x, y): (&f64, &f64)| x == y || (x.is_nan() && y.is_nan());
    ms == ns && xs.iter().zip(&ys).all(same)
}

/// A chain's records; none if it leads out of them or does not end.
fn chain_of(bytes: &[u8], first: usize) -> Option<Vec<usize>> {
    let mut met = Vec::new();
    let mut record = word(bytes, first) as usize;
    while record != 0 {
        if record > RECORDS || met.len() == RECORDS {
            return None;
        }
        met.push(record);
        record = word(bytes, place(record) + NEXT) as usize;
    }
    Some(met)
}

impl Record {
    fn state(&self) -> &[u8] {
        &self.held[..chain::STATE]
    }

    /// Takes a state unless it is the same as its own.
    fn take(&mut self, state: &[u8]) {
        if !is_same_state(self.state(), state) {
            self.held[..chain::STATE].copy_from_slice(state);
        }
    }
}

impl Model {
    pub fn empty() -> Model {
        let record = Record {
            drawer: 0,
            held: vec![0; RECORD - STATE],
        };
        Model {
            spare: vec![0; HEADER - FIRST_FREE - 4],
            used: vec![],
            free: (1..=RECORDS).collect(),
            records: vec![record; RECORDS],
        }
    }

    /// The pool that bytes stand for; none if they break a rule.
    pub fn read(bytes: &[u8]) -> Option<Model> {
        if bytes.len() != POOL {
            return None;
        }
        let used = chain_of(bytes, FIRST_USED)?;
        let free = chain_of(bytes, FIRST_FREE)?;
        let mut all = [&used[..], &free].concat();
        all.sort();
        let number = |record: &usize| word(bytes, place(*record) + NUMBER);
        let drawers: BTreeSet<u32> = used.iter().map(number).collect();
        let yes_no = |record: &usize| {
            let state = &bytes[place(*record) + STATE..];
            state[AUTO_THRESHOLD] <= 1 && state[chain::ADJUST] <= 1
        };
        let sound = all.into_iter().eq(1..=RECORDS)
            && word(bytes, COUNT) as usize == used.len()
            && drawers.iter().all(|n| (1..=65_535).contains(n))
            && drawers.len() == used.len()
            && used.iter().all(yes_no);
        let record = |k: usize| Record {
            drawer: number(&k),
            held: bytes[place(k) + STATE..place(k) + RECORD].to_vec(),
        };
        sound.then(|| Model {
            spare: bytes[FIRST_FREE + 4..HEADER].to_vec(),
            records: (1..=RECORDS).map(record).collect(),
            used,
            free,
        })
    }

    /// The bytes that stand for the pool.
    pub fn bytes(&self) -> Vec<u8> {
        let mut out = vec![0; POOL];
        put(&mut out, COUNT, self.used.len() as u32);
        out[FIRST_FREE + 4..HEADER].copy_from_slice(&self.spare);
        for (first, chain) in [(FIRST_USED, &self.used), (FIRST_FREE, &self.free)] {
            let mut link = first;
            for &record in chain {
                put(&mut out, link, record as u32);
                link = place(record) + NEXT;
            }
        }
        for (k, record) in self.records.iter().enumerate() {
            let at = place(k + 1);
            put(&mut out, at + NUMBER, record.drawer);
            out[at + STATE..at + RECORD].copy_from_slice(&record.held);
        }
        out
    }

    /// The records of the used and of the free chain.
    pub fn chains(&self) -> (&[usize], &[usize]) {
        (&self.used, &self.free)
    }

    /// The drawers' numbers in the used chain's order.
    pub fn drawers(&self) -> Vec<u32> {
        let number = |record: &usize| self.records[record - 1].drawer;
        self.used.iter().map(number).collect()
    }

    /// The drawers' numbers and zeros, thirty in all.
    pub fn listing(&self) -> Vec<u32> {
        let mut numbers = self.drawers();
        numbers.resize(RECORDS, 0);
        numbers
    }

    /// A drawer's place in the used chain.
    fn find(&self, drawer: u32) -> Option<usize> {
        self.drawers().iter().position(|n| *n == drawer)
    }

    fn record(&mut self, drawer: u32) -> Option<&mut Record> {
        let k = self.find(drawer)?;
        Some(&mut self.records[self.used[k] - 1])
    }

    /// A drawer's state.
    pub fn state(&self, drawer: u32) -> Option<&[u8]> {
        let k = self.find(drawer)?;
        Some(self.records[self.used[k] - 1].state())
    }

    pub fn open(&mut self, drawer: u32, discount: f64, adjust: u8, base: usize) -> u8 {
        if !(1..=65_535).contains(&drawer) || self.find(drawer).is_some() {
            return refusals::DRAWER;
        }
        if self.free.is_empty() {
            return refusals::FULL;
        }
        let mut held = vec![0; RECORD - STATE];
        let number = chain::new(discount, adjust, base, &mut held[..chain::STATE]);
        if number == 0 {
            let record = self.free.remove(0);
            self.used.insert(0, record);
            self.records[record - 1] = Record { drawer, held };
        }
        number
    }

    pub fn remove(&mut self, drawer: u32) -> u8 {
        let Some(k) = self.find(drawer) else {
            return refusals::DRAWER;
        };
        let record = self.used.remove(k);
        self.free.insert(0, record);
        self.records[record - 1] = Record {
            drawer: 0,
            held: vec![0; RECORD - STATE],
        };
        0
    }

    /// Writes the drawers' numbers, then zeros.
    pub fn list(&self, numbers: &mut [u32]) -> u8 {
        if numbers.len() != RECORDS {
            return refusals::POOL;
        }
        numbers.copy_from_slice(&self.listing());
        0
    }

    /// One of the setters of a state, of a drawer.
    pub fn set(&mut self, drawer: u32, setter: fn(&mut [u8], f32) -> u8, x: f32) -> u8 {
        let Some(record) = self.record(drawer) else {
            return refusals::DRAWER;
        };
        let mut after = record.state().to_vec();
        let number = setter(&mut after, x);
        record.take(&after);
        number
    }

    pub fn judge(&mut self, drawer: u32, handed: &mut Handed) -> u8 {
        let Some(record) = self.record(drawer) else {
            return refusals::DRAWER;
        };
        handed.state = record.state().to_vec();
        let number = handed.judge();
        record.take(&handed.state);
        number
    }
}
