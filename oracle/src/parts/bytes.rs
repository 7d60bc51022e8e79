//! Random bytes: states, readings and last descriptors that nothing has tidied. Every judgment
//! answers document 01's number, and nothing is written where it is not 0; where it is, the Rust is
//! asked the same. Then the setters on such states, and slices of every length.

use rcflib::trcf::predictorcorrector::PredictorCorrector;

use super::judging::{judge, refused};
use crate::chain::{self, state_of, Handed};
use crate::random::Random;
use crate::readings::making::Maker;
use crate::readings::table::{self, AUTO_THRESHOLD, READING_BASE};
use crate::readings::{decoded, states};
use crate::refusals::{HORIZON, LENGTH, RANGE};
use crate::tally::Tally;
use crate::values;

const CASES: u64 = 1_200_000;

fn uniform(random: &mut Random, n: usize) -> Vec<u8> {
    (0..n).map(|_| random.word() as u8).collect()
}

/// Random bytes at up to four places.
fn damage(random: &mut Random, bytes: &mut [u8]) {
    for _ in 0..random.below(5) {
        let at = random.below(bytes.len() as u64) as usize;
        bytes[at] = random.word() as u8;
    }
}

/// Uniform bytes, also with what refuses most of them put right, or a sound state damaged.
fn state(random: &mut Random, adjust: bool, base: usize) -> Vec<u8> {
    let any = states::arbitrary(random, adjust, base);
    let sound = states::bytes(random, &any, base);
    let mut bytes = match random.below(4) {
        0 => uniform(random, chain::STATE),
        1 => {
            let mut bytes = uniform(random, chain::STATE);
            bytes[AUTO_THRESHOLD] &= 1;
            bytes[chain::ADJUST] = adjust as u8;
            bytes[chain::BASE..chain::ACTUAL].copy_from_slice(&sound[chain::BASE..chain::ACTUAL]);
            bytes
        }
        _ => sound,
    };
    damage(random, &mut bytes);
    bytes
}

/// A made reading with random bytes in its numbers, and now and then any float in its lists.
fn handed(random: &mut Random) -> Handed {
    let mut maker = Maker::new(random);
    let chain = maker.chain();
    let reading = maker.next(random, &chain);
    let state = state(random, maker.auto_adjust, maker.base);
    let mut h = Handed::new(&state, &reading);
    if random.once_in(2) {
        let bytes = random.below(3);
        if bytes != 0 {
            damage(random, &mut h.reading);
        }
        if bytes != 1 {
            damage(random, &mut h.last);
        }
        // Most damaged bytes are those of a size.
        let base = &state[chain::BASE..chain::ACTUAL];
        h.reading[READING_BASE..READING_BASE + 4].copy_from_slice(base);
    }
    if random.once_in(8) {
        let k = random.below(8) as usize;
        let n = h.points[k].len() as u64;
        if n > 0 {
            h.points[k][random.below(n) as usize] = values::any32(random, values::list32());
        }
    }
    if random.once_in(64) {
        h.reading = uniform(random, table::READING);
        h.last = uniform(random, table::READING);
    }
    h
}

fn judged(tally: &mut Tally, random: &mut Random, counts: &mut [u64; 7]) {
    let h = handed(random);
    let number = table::refusal(&h);
    counts[number as usize] += 1;
    if number != 0 {
        refused(tally, h, number);
        return;
    }
    let mut rust = PredictorCorrector::of_state(state_of(&h.state));
    judge(tally, &h, &mut rust, &decoded::reading(&h));
}

type Setter = (fn(&mut [u8], f32) -> u8, fn(&mut PredictorCorrector, f32));

const SETTERS: [Setter; 4] = [
    (chain::set_z_factor, PredictorCorrector::set_z_factor),
    (
        chain::set_lower_threshold,
        PredictorCorrector::set_lower_threshold,
    ),
    (
        chain::set_initial_threshold,
        PredictorCorrector::set_initial_threshold,
    ),
    (chain::set_horizon, PredictorCorrector::set_horizon),
];

/// A setter on random bytes of its length or of another.
fn set(tally: &mut Tally, random: &mut Random, len: usize, k: usize) {
    let mut before = {
        let adjust = random.once_in(2);
        let base = 1 + random.below(16) as usize;
        state(random, adjust, base)
    };
    before.resize(len, 0);
    let x = match random.below(2) {
        0 => random.fraction() as f32,
        _ => values::any32(random, values::list32()),
    };
    let number = if len != chain::STATE {
        LENGTH
    } else if before[AUTO_THRESHOLD] > 1 || before[chain::ADJUST] > 1 {
        RANGE
    } else if k == 3 && !(0.0..=1.0).contains(&x) {
        HORIZON
    } else {
        0
    };
    let mut after = before.clone();
    let answer = SETTERS[k].0(&mut after, x);
    let case = || format!("setter {k} of {x:e} on {before:?}");
    tally.compare(&answer, &number, case);
    let mut wanted = before.clone();
    if number == 0 {
        let mut rust = PredictorCorrector::of_state(state_of(&before));
        SETTERS[k].1(&mut rust, x);
        let base = table::word(&before, chain::BASE);
        states::put(&rust.state(), base, &mut wanted);
    }
    tally.compare(&after, &wanted, case);
}

pub fn compare(tally: &mut Tally, random: &mut Random) {
    let mut counts = [0; 7];
    for _ in 0..CASES {
        judged(tally, random, &mut counts);
    }
    let refused: Vec<String> = (2..7).map(|k| format!("{k}: {}", counts[k])).collect();
    println!("    accepted {}; refused {}", counts[0], refused.join(", "));
    tally.compare(
        &(counts[2..].iter().all(|&n| n > 0) && counts[0] > 0),
        &true,
        || "an answer that never came up".to_string(),
    );
    for len in (0..=2700).chain([chain::STATE; 20_000]) {
        for k in 0..SETTERS.len() {
            set(tally, random, len, k);
        }
    }
}
