//! Writes a sample of the Rust's answers for the program `replay`, which asks our library the same.
//!
//! A case is 48 bytes: the operation, the number that the call answers, six bytes of 0, four
//! arguments and the result, of eight bytes each, all little-endian. A call on a state is followed
//! by the state's bytes and by those it has afterwards. What a call does not have is 0.

use std::fs;
use std::io::Result;

use rcflib::common::deviation::Deviation;
use rcflib::reach;
use rcflib::trcf::basicthresholder::{BasicThresholder, Numbers};

use crate::bytes::Bytes;
use crate::fresh;
use crate::random::Random;
use crate::refusals::{COUNT, DISCOUNT, RANGE};
use crate::statistics::{self, countable};
use crate::thresholders::{self, Call};
use crate::values;

/// How many rounds there are of each kind. A round has every operation once or twice.
const NUMBERS: u64 = 240;
const STATISTICS: u64 = 180;
const THRESHOLDERS: u64 = 90;

/// What the program has behind the yes/no of a mean or a deviation before the call.
const BEFORE: u64 = 0xa5a5_a5a5_a5a5_a5a5;

/// The file that the program reads, from the repository's folder.
const PATH: &str = "crates/replay/stdin";

/// What the program is to print.
const SAYS: &str = "crates/replay/stdout";

struct Sample {
    bytes: Vec<u8>,
    cases: u64,
}

impl Sample {
    fn case(&mut self, operation: u8, number: u8, arguments: &[u64], result: u64) {
        let mut words = [0; 6];
        words[0] = operation as u64 | (number as u64) << 8;
        words[1..=arguments.len()].copy_from_slice(arguments);
        words[5] = result;
        for word in words {
            self.bytes.extend(word.to_le_bytes());
        }
        self.cases += 1;
    }

    /// The state of the case that came last, before and after.
    fn states(&mut self, before: &[u8], after: &[u8]) {
        self.bytes.extend(before);
        self.bytes.extend(after);
    }
}

fn bits32(x: f32) -> u64 {
    x.plain().to_bits() as u64
}

fn bits64(x: f64) -> u64 {
    x.plain().to_bits()
}

/// Patterns go in as they are, NaNs among them.
fn given32(x: f32) -> u64 {
    x.to_bits() as u64
}

fn numbers(sample: &mut Sample, random: &mut Random) {
    let (notable32, notable64) = (values::notable32(), values::notable64());
    let x = values::any64(random, &notable64);
    let (a, b) = (
        values::any32(random, &notable32),
        values::any32(random, &notable32),
    );
    let n = random.word() >> random.below(64);
    let (i, u, z) = (n as i32, n as u32, n as usize);
    let root = x.abs();
    let (one, two) = ([given32(a)], [given32(a), given32(b)]);
    sample.case(0, 0, &one, bits32(a.floor()));
    sample.case(1, 0, &two, bits32(reach::maxf32(a, b)));
    sample.case(2, 0, &two, bits32(reach::minf32(a, b)));
    sample.case(3, 0, &[given32(b)], bits32(b));
    sample.case(4, 0, &one, bits32(reach::absf32(a)));
    sample.case(5, 0, &[root.to_bits()], bits64(root.sqrt()));
    sample.case(5, 0, &[x.to_bits()], bits64(x.sqrt()));
    sample.case(6, 0, &[x.to_bits()], bits64(x));
    sample.case(7, 0, &[x.to_bits()], bits32(x as f32));
    sample.case(8, 0, &one, bits64(a as f64));
    sample.case(9, 0, &[u as u64], bits32(i as f32));
    sample.case(10, 0, &[u as u64], bits64(i as f64));
    sample.case(11, 0, &[u as u64], bits32(u as f32));
    sample.case(12, 0, &[n], bits64(z as f64));
}

fn statistic(sample: &mut Sample, random: &mut Random) {
    let notable = values::notable64();
    let d = statistics::any(random, &notable);
    let before = d.bytes();
    let x = values::any64(random, &notable);
    match Deviation::new(x) {
        Ok(made) => {
            sample.case(32, 0, &[x.to_bits()], 0);
            sample.states(&before, &made.plain().bytes());
        }
        Err(_) => {
            sample.case(32, DISCOUNT, &[x.to_bits()], 0);
            sample.states(&before, &before);
        }
    }
    if countable(d.count) {
        let mut after = d.clone();
        after.update(x);
        sample.case(33, 0, &[x.to_bits()], 0);
        sample.states(&before, &after.plain().bytes());
    } else {
        sample.case(33, COUNT, &[x.to_bits()], 0);
        sample.states(&before, &before);
    }
    let mut after = d.clone();
    after.reset();
    sample.case(34, 0, &[], 0);
    sample.states(&before, &after.plain().bytes());
    for (operation, x) in [(35, d.mean()), (36, d.deviation())] {
        // Of an empty statistic the Rust's 0 is left out: a no, and the bytes behind it as they were.
        let result = if d.is_empty() { BEFORE } else { bits64(x) };
        sample.case(operation, 0, &[!d.is_empty() as u64], result);
        sample.states(&before, &before);
    }
    sample.case(37, 0, &[], d.is_empty() as u64);
    sample.states(&before, &before);
}

/// A call's operation and its arguments.
fn coded(call: Call) -> (u8, Vec<u64>) {
    let singles = |list: &[f32]| list.iter().map(|&x| given32(x)).collect::<Vec<u64>>();
    match call {
        Call::IsDeviationReady => (65, vec![]),
        Call::Threshold => (66, vec![]),
        Call::PrimaryGrade(x) => (67, singles(&[x])),
        Call::PrimaryThresholdAndGrade(x) => (68, singles(&[x])),
        Call::ThresholdAndGrade(x, m, n) => (69, vec![given32(x), m as u64, n as u64]),
        Call::ThresholdAndGradeWithFactor(x, z, m, n) => {
            (70, vec![given32(x), given32(z), m as u64, n as u64])
        }
        Call::UpdateThreshold(x) => (71, singles(&[x])),
        Call::UpdatePrimary(x) => (72, vec![x.to_bits()]),
        Call::UpdateBoth(a, b) => (73, singles(&[a, b])),
        Call::Update(a, b, c) => (74, singles(&[a, b, c])),
        Call::SetScoreDifferencing(x) => (75, singles(&[x])),
        Call::SetZFactor(x) => (76, singles(&[x])),
        Call::SetLowerThreshold(x) => (77, singles(&[x])),
        Call::SetAbsoluteThreshold(x) => (78, singles(&[x])),
        Call::SetInitialThreshold(x) => (79, singles(&[x])),
    }
}

fn call(sample: &mut Sample, s: &Numbers, call: Call) {
    let (operation, arguments) = coded(call);
    let before = s.bytes();
    let refusal = call.refusal(s);
    if refusal != 0 {
        sample.case(operation, refusal, &arguments, 0);
        sample.states(&before, &before);
        return;
    }
    let mut rust = BasicThresholder::of_numbers(s.clone());
    let answer = call.rust(&mut rust);
    let mut result = [0; 8];
    result[..answer.len()].copy_from_slice(&answer);
    sample.case(operation, 0, &arguments, u64::from_le_bytes(result));
    if call.room() > 0 {
        sample.states(&before, &before);
    } else {
        sample.states(&before, &rust.numbers().plain().bytes());
    }
}

fn new(sample: &mut Sample, s: &Numbers, discount: f64, adjust: u8) {
    let before = s.bytes();
    let arguments = [discount.to_bits(), adjust as u64];
    let (number, after) = match fresh::thresholder(discount, adjust == 1) {
        Ok(made) if adjust <= 1 => (0, made.numbers().plain().bytes()),
        Ok(_) => (RANGE, before.clone()),
        Err(_) => (DISCOUNT, before.clone()),
    };
    sample.case(64, number, &arguments, 0);
    sample.states(&before, &after);
}

/// A state that up to forty scores lead to, as stored before A5, with z 3.
fn lived(random: &mut Random) -> Numbers {
    let mut s = BasicThresholder::of_numbers(thresholders::fresh(random));
    s.set_z_factor(3.0);
    for _ in 0..random.below(40) {
        let scores = [random.fraction() as f32, random.fraction() as f32];
        s.update(1.0 + 0.25 * scores[0], 1.0 + 0.25 * scores[1], scores[0]);
    }
    s.numbers()
}

fn thresholder(sample: &mut Sample, random: &mut Random) {
    let (notable32, notable64) = (values::notable32(), values::notable64());
    let s = if random.once_in(3) {
        thresholders::arbitrary(random, &notable32, &notable64)
    } else {
        lived(random)
    };
    new(
        sample,
        &s,
        statistics::discount(random),
        random.below(3) as u8,
    );
    let mut calls = thresholders::questions(random, &s, &notable32).to_vec();
    calls.extend(thresholders::questions(random, &s, &notable32)[4..].iter());
    calls.extend(thresholders::settings(random, &notable32));
    calls.extend(thresholders::updates(|| values::any32(random, &notable32)));
    for one in calls {
        call(sample, &s, one);
    }
}

/// Writes the sample and the line that the program is to print.
pub fn write(random: &mut Random) -> Result<()> {
    let mut sample = Sample {
        bytes: Vec::new(),
        cases: 0,
    };
    (0..NUMBERS).for_each(|_| numbers(&mut sample, random));
    (0..STATISTICS).for_each(|_| statistic(&mut sample, random));
    (0..THRESHOLDERS).for_each(|_| thresholder(&mut sample, random));
    fs::write(PATH, &sample.bytes)?;
    fs::write(SAYS, format!("{} cases, 0 differ\n", sample.cases))?;
    println!("{} cases, {} bytes", sample.cases, sample.bytes.len());
    Ok(())
}
