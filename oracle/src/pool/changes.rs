//! Ways to change a pool's bytes: those that break one of its rules and nothing else, and those that
//! break none.

use super::model::Model;
use super::{
    place, put, word, COUNT, FIRST_FREE, FIRST_USED, HEADER, NEXT, NUMBER, RECORD, RECORDS, STATE,
};
use crate::chain;
use crate::random::Random;
use crate::readings::table::AUTO_THRESHOLD;
use crate::readings::{damage, states};

/// A sound pool's bytes, to be changed, and its chains as they were.
#[derive(Clone)]
pub struct Changing {
    pub bytes: Vec<u8>,
    used: Vec<usize>,
    free: Vec<usize>,
}

/// A way to change the bytes: its name, and whether it could be gone.
pub type Way = (&'static str, fn(&mut Random, &mut Changing) -> bool);

/// Each breaks one rule.
pub const BREAKING: [Way; 13] = [
    ("used chain leads out", |r, c| c.leads_out(r, FIRST_USED)),
    ("free chain leads out", |r, c| c.leads_out(r, FIRST_FREE)),
    ("used chain does not end", |r, c| c.endless(r, FIRST_USED)),
    ("free chain does not end", |r, c| c.endless(r, FIRST_FREE)),
    ("free record in the used chain", |_, c| c.used_and_free()),
    ("used record in the free chain", |_, c| c.free_and_used()),
    ("used record in no chain", |_, c| c.cut(FIRST_USED)),
    ("free record in no chain", |_, c| c.cut(FIRST_FREE)),
    ("another count", |r, c| c.another_count(r)),
    ("drawer number out of range", |r, c| c.no_number(r)),
    ("drawer number twice", |r, c| c.number_twice(r)),
    ("auto threshold no yes/no", |r, c| c.flag(r, AUTO_THRESHOLD)),
    ("auto adjust no yes/no", |r, c| c.flag(r, chain::ADJUST)),
];

/// None breaks a rule.
pub const SPARING: [Way; 7] = [
    ("the header's spare bytes", |r, c| c.header(r)),
    ("bytes behind a state", |r, c| c.behind(r)),
    ("what a free record holds", |r, c| c.free_record(r)),
    ("another base in a state", |r, c| c.base(r)),
    ("a count in a state", |r, c| c.count(r)),
    ("a state of any floats", |r, c| c.any_state(r)),
    ("NaNs of any bits in a state", |r, c| c.nans(r)),
];

/// A number that is not `n` in its four bytes, though it may be in the lowest of them.
fn another(random: &mut Random, n: u32, more: &[u32]) -> u32 {
    let high = [n ^ (1 << 8), n ^ (1 << 16), n ^ (1 << 24), u32::MAX];
    match random.below(2) {
        0 => random.of(&high),
        _ => random.of(more),
    }
}

fn one_of(random: &mut Random, list: &[usize]) -> Option<usize> {
    (!list.is_empty()).then(|| random.of(list))
}

impl Changing {
    pub fn new(model: &Model) -> Changing {
        let (used, free) = model.chains();
        Changing {
            bytes: model.bytes(),
            used: used.to_vec(),
            free: free.to_vec(),
        }
    }

    fn chain(&self, first: usize) -> &[usize] {
        if first == FIRST_USED {
            &self.used
        } else {
            &self.free
        }
    }

    /// Where the chain names its records, and at the end its 0.
    fn links(&self, first: usize) -> Vec<usize> {
        let next = self.chain(first).iter().map(|r| place(*r) + NEXT);
        [first].into_iter().chain(next).collect()
    }

    fn leads_out(&mut self, random: &mut Random, first: usize) -> bool {
        let link = random.of(&self.links(first));
        let n = word(&self.bytes, link);
        put(&mut self.bytes, link, another(random, n, &[31, 32, 255]));
        true
    }

    /// A record leads back to itself or to one before it.
    fn endless(&mut self, random: &mut Random, first: usize) -> bool {
        let chain = self.chain(first);
        if chain.is_empty() {
            return false;
        }
        let k = random.below(chain.len() as u64) as usize;
        let (record, back) = (chain[k], random.of(&chain[..=k]));
        put(&mut self.bytes, place(record) + NEXT, back as u32);
        true
    }

    /// The last free record also ends the used chain, in which it is sound.
    fn used_and_free(&mut self) -> bool {
        let Some(&record) = self.free.last() else {
            return false;
        };
        let link = *self.links(FIRST_USED).last().expect("the first one");
        put(&mut self.bytes, link, record as u32);
        put(&mut self.bytes, COUNT, self.used.len() as u32 + 1);
        let taken = |n: &u32| {
            let number = |r: &usize| word(&self.bytes, place(*r) + NUMBER);
            self.used.iter().any(|r| number(r) == *n)
        };
        let number = (1..)
            .find(|n| !taken(n))
            .expect("more numbers than records");
        let at = place(record);
        put(&mut self.bytes, at + NUMBER, number);
        self.bytes[at + STATE + AUTO_THRESHOLD] = 0;
        self.bytes[at + STATE + chain::ADJUST] = 1;
        true
    }

    /// The last used record also ends the free chain.
    fn free_and_used(&mut self) -> bool {
        let Some(&record) = self.used.last() else {
            return false;
        };
        let link = *self.links(FIRST_FREE).last().expect("the first one");
        put(&mut self.bytes, link, record as u32);
        true
    }

    /// The chain ends ahead of its last record; the count is that of the used chain.
    fn cut(&mut self, first: usize) -> bool {
        let [.., link, _] = self.links(first)[..] else {
            return false;
        };
        put(&mut self.bytes, link, 0);
        if first == FIRST_USED {
            put(&mut self.bytes, COUNT, self.used.len() as u32 - 1);
        }
        true
    }

    fn another_count(&mut self, random: &mut Random) -> bool {
        let n = word(&self.bytes, COUNT);
        let near = [n + 1, n.wrapping_sub(1), 30 - n.min(30), 31];
        let count = another(random, n, &near);
        put(&mut self.bytes, COUNT, count);
        count != n
    }

    fn no_number(&mut self, random: &mut Random) -> bool {
        let Some(record) = one_of(random, &self.used) else {
            return false;
        };
        let at = place(record) + NUMBER;
        let n = word(&self.bytes, at) | (1 << 16 << random.below(16));
        let number = random.of(&[0, 65_536, n, n, u32::MAX]);
        put(&mut self.bytes, at, number);
        true
    }

    fn number_twice(&mut self, random: &mut Random) -> bool {
        if self.used.len() < 2 {
            return false;
        }
        let k = random.below(self.used.len() as u64) as usize;
        let by = 1 + random.below(self.used.len() as u64 - 1) as usize;
        let other = self.used[(k + by) % self.used.len()];
        let number = word(&self.bytes, place(other) + NUMBER);
        put(&mut self.bytes, place(self.used[k]) + NUMBER, number);
        true
    }

    fn flag(&mut self, random: &mut Random, at: usize) -> bool {
        let Some(record) = one_of(random, &self.used) else {
            return false;
        };
        self.bytes[place(record) + STATE + at] = 2 + random.below(254) as u8;
        true
    }

    /// Random bytes at some places of a range.
    fn strew(&mut self, random: &mut Random, from: usize, upto: usize) -> bool {
        for _ in 0..1 + random.below(40) {
            let at = from + random.below((upto - from) as u64) as usize;
            self.bytes[at] = random.word() as u8;
        }
        true
    }

    fn header(&mut self, random: &mut Random) -> bool {
        self.strew(random, FIRST_FREE + 4, HEADER)
    }

    fn behind(&mut self, random: &mut Random) -> bool {
        let at = place(1 + random.below(RECORDS as u64) as usize);
        self.strew(random, at + STATE + chain::STATE, at + RECORD)
    }

    /// Its number may be that of a drawer.
    fn free_record(&mut self, random: &mut Random) -> bool {
        let Some(record) = one_of(random, &self.free) else {
            return false;
        };
        if let Some(other) = one_of(random, &self.used) {
            let number = word(&self.bytes, place(other) + NUMBER);
            put(&mut self.bytes, place(record) + NUMBER, number);
        }
        let (from, upto) = (place(record) + STATE, place(record) + RECORD);
        self.strew(random, from, upto);
        self.bytes[from + chain::ADJUST] = random.word() as u8;
        true
    }

    /// One of the drawers' states, to be changed.
    fn state(&mut self, random: &mut Random) -> Option<&mut [u8]> {
        let at = place(one_of(random, &self.used)?) + STATE;
        Some(&mut self.bytes[at..at + chain::STATE])
    }

    fn base(&mut self, random: &mut Random) -> bool {
        let Some(state) = self.state(random) else {
            return false;
        };
        let base = random.of(&[0, 1, 2, 16, 17, 257, u32::MAX]);
        put(state, chain::BASE, base);
        true
    }

    fn count(&mut self, random: &mut Random) -> bool {
        match self.state(random) {
            Some(state) if word(state, chain::BASE) <= 16 => damage::count(random, state),
            _ => return false,
        }
        true
    }

    /// Entries that do not exist are of random bytes.
    fn any_state(&mut self, random: &mut Random) -> bool {
        let Some(state) = self.state(random) else {
            return false;
        };
        let base = word(state, chain::BASE).clamp(1, 16) as usize;
        let any = states::arbitrary(random, state[chain::ADJUST] == 1, base);
        state.copy_from_slice(&states::bytes(random, &any, base));
        true
    }

    /// In floats of the thresholder and of its statistics.
    fn nans(&mut self, random: &mut Random) -> bool {
        let Some(state) = self.state(random) else {
            return false;
        };
        for _ in 0..1 + random.below(4) {
            let any = 0x7fc0_0000 | random.word() as u32;
            let at = random.of(&[0, 8, 12, 125, 129, 133, 137, 141, 145]);
            put(state, at, random.of(&[0x7f80_0001, 0xffc0_0000, any]));
        }
        let at = random.of(&[16, 52, 88]) + 8 * random.below(4) as usize;
        let double = 0x7ff0_0000_0000_0001 | random.word();
        state[at..at + 8].copy_from_slice(&double.to_le_bytes());
        true
    }
}
