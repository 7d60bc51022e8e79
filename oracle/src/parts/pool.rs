//! A pool of drawers against a model of plain lists: long sequences of calls, among them calls on
//! bytes that break a rule of the pool's and on slices of other lengths. After every call its answer,
//! all of the bytes, the listing and what was written beside the pool.

use std::collections::BTreeMap;

use rcflib::trcf::predictorcorrector::PredictorCorrector;

use crate::bytes::Bytes;
use crate::chain::{self, state_of, Handed};
use crate::pool::calls::{listing, unlisted, Call, KINDS, SETTERS};
use crate::pool::changes::{Changing, BREAKING, SPARING};
use crate::pool::model::Model;
use crate::pool::{POOL, RECORDS};
use crate::random::Random;
use crate::readings::damage::spoil;
use crate::readings::making::Maker;
use crate::readings::Reading;
use crate::refusals::{self, LENGTH, NOT_FINITE, RANGE, VALUES_SEEN};
use crate::statistics;
use crate::tally::Tally;
use crate::values;

const SEQUENCES: u64 = 1_000;
const CALLS: u64 = 1_000;

/// How often each answer of a call, each way to change a pool and each verdict has to come up.
const LEAST: u64 = 500;

/// The answers that each kind of call can give.
const ANSWERS: [&[u8]; KINDS.len()] = [
    &[0, 13],
    &[0, 1, 2, 11, 12, 13],
    &[0, 11, 13],
    &[0, 13],
    &[0, 7, 11, 13],
    &[0, 2, 3, 4, 5, 6, 11, 13],
];

/// How likely each kind is while the pool is filled, in between, and while it is emptied.
const MOODS: [[u64; KINDS.len()]; 3] = [
    [0, 100, 10, 10, 60, 220],
    [1, 20, 20, 10, 80, 270],
    [1, 20, 60, 10, 80, 230],
];

/// Bytes in front of and behind a lent slice, which no call may touch.
const AROUND: usize = 64;

/// What came up.
#[derive(Default)]
struct Seen {
    answers: [[u64; 14]; KINDS.len()],
    /// Accepted settings that left the state as it was: the stored value itself, and one that
    /// compares equal to it with other bits.
    same: [u64; 2],
    /// Calls on a pool without drawers, and on a full one.
    empty: u64,
    full: u64,
    /// By strategy and by the verdict's code.
    verdicts: [[u64; 4]; 2],
    /// By the way that the bytes were changed in; several at once; bytes of another length.
    broken: [u64; BREAKING.len()],
    several: u64,
    resized: u64,
    spared: [u64; SPARING.len()],
}

/// A pool on both sides, and what its drawers' next calls are made from.
struct Pair {
    ours: Vec<u8>,
    model: Model,
    makers: BTreeMap<u32, Maker>,
    /// Numbers that drawers are opened with, more than there are records.
    numbers: Vec<u32>,
    mood: [u64; KINDS.len()],
}

impl Pair {
    fn new(random: &mut Random) -> Pair {
        let any = (0..38).map(|_| 1 + random.below(65_535) as u32);
        Pair {
            ours: Model::empty().bytes(),
            model: Model::empty(),
            makers: BTreeMap::new(),
            numbers: [1, 65_535].into_iter().chain(any).collect(),
            mood: MOODS[0],
        }
    }

    /// A number that may or may not be a drawer's.
    fn number(&self, random: &mut Random) -> u32 {
        match random.below(8) {
            0 => random.of(&[0, 65_535, 65_536, u32::MAX]),
            1 => random.word() as u32 >> random.below(32),
            _ => random.of(&self.numbers),
        }
    }

    /// A drawer's number, if there is one, and now and then any.
    fn drawer(&self, random: &mut Random) -> u32 {
        let drawers = self.model.drawers();
        if drawers.is_empty() || random.once_in(12) {
            return self.number(random);
        }
        random.of(&drawers)
    }

    /// An opening, most often of a drawer that is not there.
    fn open(&mut self, random: &mut Random) -> Call {
        let drawers = self.model.drawers();
        self.numbers.rotate_left(1);
        let absent = self.numbers.iter().find(|n| !drawers.contains(n));
        let drawer = match absent {
            Some(n) if !random.once_in(3) => *n,
            _ => self.number(random),
        };
        let maker = Maker::new(random);
        let (mut discount, mut base) = (statistics::discount(random), maker.base);
        let mut adjust = maker.auto_adjust as u8;
        if random.once_in(8) {
            discount = values::any64(random, values::list64());
        }
        if random.once_in(12) {
            adjust = random.of(&[2, 3, 255]);
        }
        if random.once_in(12) {
            base = random.of(&[0, 17, 256, (1 << 32) + 1, usize::MAX]);
        }
        if !drawers.contains(&drawer) {
            self.makers.insert(drawer, maker);
        }
        Call::Open {
            drawer,
            discount,
            adjust,
            base,
        }
    }

    /// A setting, often one that the drawer has already, or has but for a zero's sign or a NaN's bits.
    fn set(&self, random: &mut Random) -> Call {
        let drawer = self.drawer(random);
        let setter = random.below(4) as usize;
        let field = SETTERS[setter].field;
        let state = self.model.state(drawer);
        let stored = state.map_or(0.5, |state| f32::get(&state[field..]));
        let nan = f32::from_bits(0x7fc0_0000 | random.word() as u32);
        let x = match random.below(8) {
            0 | 1 => stored,
            2 if stored == 0.0 => -stored,
            2 if stored.is_nan() => nan,
            2 => random.of(&[0.0, -0.0]),
            3 => random.of(&[nan, f32::NAN, values::step32(stored, 1)]),
            4 => random.of(&[0.0, -0.0, 1.0, values::step32(1.0, 1), -1e-45]),
            5 => values::any32(random, values::list32()),
            _ => random.fraction() as f32,
        };
        Call::Set { setter, drawer, x }
    }

    /// A judgment, and its reading unless something of it was spoilt.
    fn judge(&mut self, random: &mut Random) -> (Call, Option<Reading>) {
        let drawer = self.drawer(random);
        let state = self.model.state(drawer);
        let state = state.map_or(vec![0; chain::STATE], <[u8]>::to_vec);
        let made = self.makers.entry(drawer);
        let maker = made.or_insert_with(|| Maker::new(random));
        let reading = maker.next(random, &PredictorCorrector::of_state(state_of(&state)));
        let mut handed = Handed::new(&state, &reading);
        let sound = !random.once_in(6);
        if !sound {
            let number = random.of(&[RANGE, LENGTH, NOT_FINITE, VALUES_SEEN]);
            spoil(random, &mut handed, number);
            handed.state = state;
        }
        let call = Call::Judge(drawer, Box::new(handed));
        (call, sound.then_some(reading))
    }

    /// The next call.
    fn call(&mut self, random: &mut Random) -> (Call, Option<Reading>) {
        let mut n = random.below(self.mood.iter().sum());
        let mut kind = 0;
        while n >= self.mood[kind] {
            n -= self.mood[kind];
            kind += 1;
        }
        let call = match kind {
            0 => Call::LayOut,
            1 => self.open(random),
            2 => Call::Remove(self.drawer(random)),
            3 => Call::list(random.of(&[30, 30, 30, 0, 1, 29, 31, 60])),
            4 => self.set(random),
            _ => return self.judge(random),
        };
        (call, None)
    }

    /// Lets a drawer's readings go on from one that was accepted in this state.
    fn accepted(&mut self, drawer: u32, state: &[u8], reading: &Reading) {
        let mut rust = PredictorCorrector::of_state(state_of(state));
        let (result, _) = reading.judge(&mut rust);
        if let Some(maker) = self.makers.get_mut(&drawer) {
            maker.judged(reading, &result);
        }
    }
}

/// A few of the places at which bytes differ.
fn differing(ours: &[u8], model: &[u8]) -> Vec<usize> {
    if ours == model {
        return vec![];
    }
    let differ = (0..model.len()).filter(|&k| ours[k] != model[k]);
    differ.take(8).collect()
}

/// A call after it was made: its answer, and the bytes that it left.
type Made<'a> = (u8, &'a Call, &'a [u8]);

/// Answer, bytes and what was written beside them.
fn compare_call(tally: &mut Tally, ours: Made, model: Made) {
    let case = |what: &str| format!("{what} of {}", model.1.show());
    tally.compare(&ours.0, &model.0, || case("the answer"));
    let written = (ours.1.written(), model.1.written());
    tally.compare(&written.0, &written.1, || case("what was written"));
    let places = differing(ours.2, model.2);
    tally.compare(&places, &vec![], || case("the pool's bytes"));
}

impl Seen {
    /// Notes a call on a pool, and the drawer's state before and after it.
    fn note(&mut self, answer: u8, call: &Call, [before, after]: [Option<Vec<u8>>; 2]) {
        self.answers[call.kind()][answer as usize % 14] += 1;
        if answer != 0 {
            return;
        }
        match call {
            Call::Set { setter, x, .. } if before == after => {
                let state = before.unwrap_or_default();
                let stored = f32::get(&state[SETTERS[*setter].field..]);
                self.same[(stored.to_bits() != x.to_bits()) as usize] += 1;
            }
            Call::Judge(_, h) => {
                self.verdicts[h.reading[8] as usize][h.verdict[0] as usize] += 1;
            }
            _ => {}
        }
    }
}

/// A call on both sides.
fn step(tally: &mut Tally, random: &mut Random, pair: &mut Pair, seen: &mut Seen) {
    let (mut call, reading) = pair.call(random);
    let drawers = pair.model.drawers().len();
    seen.empty += (drawers == 0) as u64;
    seen.full += (drawers == RECORDS) as u64;
    let state = |model: &Model| {
        call.drawer()
            .and_then(|drawer| Some(model.state(drawer)?.to_vec()))
    };
    let before = state(&pair.model);
    let mut modelled = call.clone();
    let answer = modelled.of_model(&mut pair.model);
    let after = state(&pair.model);
    let number = call.ours(&mut pair.ours);
    let bytes = pair.model.bytes();
    compare_call(
        tally,
        (number, &call, &pair.ours),
        (answer, &modelled, &bytes),
    );
    let wanted = (0, pair.model.listing());
    tally.compare(&listing(&pair.ours), &wanted, || {
        format!("the listing after {}", call.show())
    });
    // A difference is told once.
    pair.ours = bytes;
    if let (0, Some(reading), Some(state)) = (answer, reading, &before) {
        pair.accepted(call.drawer().unwrap_or(0), state, &reading);
    }
    seen.note(answer, &modelled, [before, after]);
}

/// A call on bytes that are no pool's: 13, and nothing is written in them or around them. Only laying
/// out does not look at them.
fn refused(tally: &mut Tally, mut call: Call, bytes: Vec<u8>, seen: &mut Seen) {
    let around = [0xa5; AROUND];
    let within = AROUND..AROUND + bytes.len();
    let mut ours = [&around[..], &bytes, &around].concat();
    let mut model = ours.clone();
    let before = call.clone();
    let mut answer = refusals::POOL;
    let mut listed = (refusals::POOL, unlisted());
    if matches!(call, Call::LayOut) && bytes.len() == POOL {
        model[within.clone()].copy_from_slice(&Model::empty().bytes());
        (answer, listed) = (0, (0, Model::empty().listing()));
    }
    let number = call.ours(&mut ours[within.clone()]);
    compare_call(tally, (number, &call, &ours), (answer, &before, &model));
    tally.compare(&listing(&ours[within]), &listed, || {
        format!("the listing after {}", before.show())
    });
    seen.note(answer, &before, [None, None]);
}

/// A call on the pool with a rule of it broken, or several; false where it has nothing to break.
fn broken(tally: &mut Tally, random: &mut Random, pair: &mut Pair, seen: &mut Seen) -> bool {
    let mut changing = Changing::new(&pair.model);
    let k = random.below(BREAKING.len() as u64) as usize;
    let (name, change) = BREAKING[k];
    if !change(random, &mut changing) {
        return false;
    }
    let several = random.once_in(4);
    for _ in 0..if several { 1 + random.below(3) } else { 0 } {
        random.of(&BREAKING).1(random, &mut changing);
    }
    let sound = Model::read(&changing.bytes).is_some();
    if several && sound {
        // They have undone each other.
        return false;
    }
    tally.compare(&sound, &false, || format!("the model after {name}"));
    if several {
        seen.several += 1;
    } else {
        seen.broken[k] += 1;
    }
    let (call, _) = pair.call(random);
    refused(tally, call, changing.bytes, seen);
    true
}

/// A change of the bytes that breaks no rule, from which the sequence goes on.
fn spared(tally: &mut Tally, random: &mut Random, pair: &mut Pair, seen: &mut Seen) {
    let mut changing = Changing::new(&pair.model);
    let k = random.below(SPARING.len() as u64) as usize;
    let (name, change) = SPARING[k];
    if !change(random, &mut changing) {
        return;
    }
    let model = Model::read(&changing.bytes);
    tally.compare(&model.is_some(), &true, || {
        format!("the model after {name}")
    });
    if let Some(model) = model {
        seen.spared[k] += 1;
        pair.model = model;
        pair.ours = changing.bytes;
    }
}

/// A call on the pool's bytes cut off, or with more behind them.
fn resized(tally: &mut Tally, random: &mut Random, pair: &mut Pair, seen: &mut Seen) {
    let lengths = [
        0,
        1,
        12,
        32,
        2080,
        POOL - 2048,
        POOL - 1,
        POOL + 1,
        2 * POOL,
    ];
    let mut bytes = pair.model.bytes();
    bytes.resize(random.of(&lengths), 0);
    seen.resized += 1;
    let call = match random.once_in(8) {
        true => Call::LayOut,
        false => pair.call(random).0,
    };
    refused(tally, call, bytes, seen);
}

fn sequence(tally: &mut Tally, random: &mut Random, seen: &mut Seen) {
    let unlaid = (0..POOL).map(|_| random.word() as u8).collect();
    refused(tally, Call::LayOut, unlaid, seen);
    let mut pair = Pair::new(random);
    for _ in 0..CALLS {
        if random.once_in(120) {
            pair.mood = random.of(&MOODS);
        }
        if random.once_in(40) {
            spared(tally, random, &mut pair, seen);
        }
        match random.below(40) {
            0 => resized(tally, random, &mut pair, seen),
            1..=6 if broken(tally, random, &mut pair, seen) => {}
            _ => step(tally, random, &mut pair, seen),
        }
    }
}

fn report(tally: &mut Tally, seen: &Seen) {
    for (k, kind) in KINDS.iter().enumerate() {
        let count = |n: &u8| (format!("answer {n}"), seen.answers[k][*n as usize]);
        let counts: Vec<(String, u64)> = ANSWERS[k].iter().map(count).collect();
        tally.owed(kind, &counts, LEAST);
    }
    for (strategy, counts) in ["height", "DISTANCE"].iter().zip(&seen.verdicts) {
        let kinds = ["quiet", "corrected", "raised", "skipped"].map(str::to_string);
        let counts: Vec<(String, u64)> = kinds.into_iter().zip(*counts).collect();
        tally.owed(&format!("judged by {strategy}"), &counts, LEAST);
    }
    let named = |names: &[&str], counts: &[u64]| -> Vec<(String, u64)> {
        let names = names.iter().map(|name| name.to_string());
        names.zip(counts.iter().copied()).collect()
    };
    let same = named(&["the same bits", "other bits"], &seen.same);
    tally.owed("settings not written", &same, LEAST);
    let pools = [seen.empty, seen.full, seen.resized, seen.several];
    let kinds = [
        "empty",
        "full",
        "of another length",
        "broken in several ways",
    ];
    tally.owed("pools", &named(&kinds, &pools), LEAST);
    let names = BREAKING.map(|(name, _)| name);
    tally.owed("broken alone", &named(&names, &seen.broken), LEAST);
    let names = SPARING.map(|(name, _)| name);
    tally.owed("changed and sound", &named(&names, &seen.spared), LEAST);
}

pub fn compare(tally: &mut Tally, random: &mut Random) {
    let mut seen = Seen::default();
    for _ in 0..SEQUENCES {
        sequence(tally, random, &mut seen);
    }
    report(tally, &seen);
}
