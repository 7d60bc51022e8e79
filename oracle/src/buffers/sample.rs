//! Writes a sample of the calls on a reading's buffers for the program `calls_replay`, and the Rust's
//! lines for them. How a call is laid out is said there.

use std::fs;
use std::io::Result;

use super::adjusting::AutoAdjust;
use super::asked::AskedOfForest;
use super::corrector::Corrector;
use super::expected::ExpectedPoint;
use super::missing::{MissingIndices, ROOM};
use super::Call;
use crate::bytes::Bytes;
use crate::chain::STATE;
use crate::random::Random;
use crate::readings::table::READING;

/// How many calls there are of each operation; every other one is spoilt.
const ROUNDS: u64 = 80;

const CALLS: &str = "crates/calls_replay/stdin";
const LINES: &str = "crates/calls_replay/stdout";

/// What a buffer that may be written holds before.
const FILLING: f32 = -1.0;
const NUMBER: usize = 9;
const ROW: usize = 16;

/// A call as it is stored.
#[derive(Default)]
struct Stored<'a> {
    operation: u8,
    numbers: [usize; 7],
    rows: [&'a [f32]; 5],
    out: usize,
    state: &'a [u8],
}

impl Stored<'_> {
    /// Its bytes, where numbers and lengths have room.
    fn bytes(&self) -> Option<Vec<u8>> {
        let mut bytes = vec![self.operation];
        for n in self.numbers {
            bytes.push(u8::try_from(n).ok()?);
        }
        for n in self.rows.map(<[f32]>::len).into_iter().chain([self.out]) {
            bytes.push((n <= ROW).then_some(n as u8)?);
        }
        bytes.extend([0, 0]);
        for row in self.rows {
            let padded = row.iter().chain(&[0.0; ROW]).take(ROW);
            bytes.extend(padded.flat_map(|x| x.to_le_bytes()));
        }
        bytes.extend(self.state);
        Some(bytes)
    }
}

/// A call that the program can make.
trait Sampled: Call {
    /// Puts what the program does not take from its input to what it has there.
    fn settle(&mut self);

    /// Its bytes.
    fn stored(&self) -> Option<Vec<u8>>;

    /// What the checksum is made of.
    fn words(left: Self::Left) -> Vec<u64>;
}

fn padded(floats: Vec<f32>) -> Vec<u64> {
    let row = floats.into_iter().chain([FILLING; ROW]).take(ROW);
    row.map(|x| x.plain().to_bits() as u64).collect()
}

/// The floats that have a place in a row.
fn narrowed(list: &[f64]) -> Vec<f32> {
    list.iter().map(|&x| x as f32).collect()
}

impl Sampled for ExpectedPoint {
    fn settle(&mut self) {
        self.out.fill(FILLING);
        for list in &mut self.vectors {
            *list = narrowed(list).into_iter().map(f64::from).collect();
        }
    }

    fn stored(&self) -> Option<Vec<u8>> {
        let [high, low] = self.vectors.each_ref().map(|list| narrowed(list));
        let [point, median] = &self.points;
        let stored = Stored {
            operation: 0,
            numbers: [self.shingle, self.base, self.position, 0, 0, 0, 0],
            rows: [point, median, &[], &high, &low],
            out: self.out.len(),
            ..Stored::default()
        };
        stored.bytes()
    }

    fn words(left: Vec<f32>) -> Vec<u64> {
        padded(left)
    }
}

impl Sampled for Corrector {
    fn settle(&mut self) {
        self.out.fill(FILLING);
        self.relative_index = self.relative_index.clamp(-1, 0);
    }

    fn stored(&self) -> Option<Vec<u8>> {
        let [point, expected, anomalous] = &self.points;
        let yes_no = [self.has_anomaly, self.use_difference, self.time_augmented];
        let [anomaly, difference, time] = yes_no.map(usize::from);
        let below = -self.relative_index as usize;
        let stored = Stored {
            operation: 1,
            numbers: [
                self.shingle,
                self.base,
                self.gap,
                anomaly,
                difference,
                time,
                below,
            ],
            rows: [point, expected, anomalous, &[], &[]],
            out: self.out.len(),
            ..Stored::default()
        };
        stored.bytes()
    }

    fn words(left: Vec<f32>) -> Vec<u64> {
        padded(left)
    }
}

impl Sampled for AutoAdjust {
    fn settle(&mut self) {}

    /// The state may lack its last byte.
    fn stored(&self) -> Option<Vec<u8>> {
        let short = STATE.checked_sub(self.state.len()).filter(|n| *n <= 1)?;
        let mut state = self.state.clone();
        state.resize(STATE, 0);
        let stored = Stored {
            operation: 2,
            numbers: [self.shingle, 0, 0, 0, 0, 0, 0],
            rows: [&self.point, &[], &[], &[], &[]],
            out: short,
            state: &state,
        };
        stored.bytes()
    }

    fn words(mut left: Vec<u8>) -> Vec<u64> {
        left.resize(STATE, 0);
        left.into_iter().map(u64::from).collect()
    }
}

impl Sampled for MissingIndices {
    fn settle(&mut self) {
        self.out.fill(NUMBER);
        for list in &mut self.vectors {
            *list = narrowed(list).into_iter().map(f64::from).collect();
        }
    }

    fn stored(&self) -> Option<Vec<u8>> {
        let [high, low] = self.vectors.each_ref().map(|list| narrowed(list));
        let stored = Stored {
            operation: 3,
            numbers: [self.shingle, self.base, self.gap, 0, 0, 0, 0],
            rows: [&[], &[], &[], &high, &low],
            out: self.out.len(),
            ..Stored::default()
        };
        (self.out.len() <= ROOM).then(|| stored.bytes()).flatten()
    }

    fn words(mut left: Vec<usize>) -> Vec<u64> {
        left.resize(ROOM, NUMBER);
        left.into_iter().map(|n| n as u64).collect()
    }
}

impl Sampled for AskedOfForest {
    fn settle(&mut self) {
        self.out.fill(NUMBER);
    }

    /// The state, the reading and the last descriptor may lack their last byte.
    fn stored(&self) -> Option<Vec<u8>> {
        let h = &self.handed;
        let mut numbers = [0; 7];
        let mut bytes = Vec::new();
        let slices = [(&h.state, STATE), (&h.reading, READING), (&h.last, READING)];
        for ((slice, whole), short) in slices.into_iter().zip(&mut numbers) {
            *short = whole.checked_sub(slice.len()).filter(|n| *n <= 1)?;
            bytes.extend(slice);
            bytes.extend(vec![0; *short]);
        }
        let stored = Stored {
            operation: 4,
            numbers,
            out: self.out.len(),
            state: &bytes,
            ..Stored::default()
        };
        (self.out.len() <= ROOM).then(|| stored.bytes()).flatten()
    }

    fn words(mut left: Vec<usize>) -> Vec<u64> {
        left.resize(ROOM, NUMBER);
        left.into_iter().map(|n| n as u64).collect()
    }
}

/// A call of which the program has room for all, and its bytes.
fn drawn<C: Sampled>(random: &mut Random, spoilt: bool) -> (C, Vec<u8>) {
    loop {
        let mut call = C::sound(random);
        if spoilt {
            let number = random.of(C::NUMBERS);
            call.spoil(random, number);
        }
        call.settle();
        if let Some(bytes) = call.stored() {
            return (call, bytes);
        }
    }
}

/// The call's bytes and the Rust's line; what is refused is left as it is.
fn add<C: Sampled>(random: &mut Random, spoilt: bool, calls: &mut Vec<u8>, lines: &mut String) {
    let (call, bytes) = drawn::<C>(random, spoilt);
    let number = call.refusal();
    let left = if number == 0 {
        call.rust()
    } else {
        call.left()
    };
    let mix = |sum: u64, word: u64| sum.rotate_left(7).wrapping_add(word);
    let sum = C::words(left).into_iter().fold(0, mix);
    *lines += &format!("{:02x}{number:02x}{sum:016x}\n", bytes[0]);
    calls.extend(bytes);
}

pub fn write(random: &mut Random) -> Result<()> {
    let (mut calls, mut lines) = (Vec::new(), String::new());
    for k in 0..ROUNDS {
        let spoilt = k % 2 == 1;
        add::<ExpectedPoint>(random, spoilt, &mut calls, &mut lines);
        add::<Corrector>(random, spoilt, &mut calls, &mut lines);
        add::<AutoAdjust>(random, spoilt, &mut calls, &mut lines);
        add::<MissingIndices>(random, spoilt, &mut calls, &mut lines);
        add::<AskedOfForest>(random, spoilt, &mut calls, &mut lines);
    }
    println!(
        "{} calls on buffers, {} bytes",
        lines.lines().count(),
        calls.len()
    );
    fs::write(CALLS, calls)?;
    fs::write(LINES, lines)
}
