//! Writes a sample of vector calls for the program `vector_replay`, and the Rust's lines for them.
//!
//! A call is 40 words of eight bytes, little-endian: the operation, the lengths of high and low, a
//! size (index, number or base), the gap, a float, two zeros, then high, low, other high and other
//! low with room for eight floats each. The others are as long as high. A line is the operation, the
//! refusal's number or 0, the answer's bits and a checksum of the four lists afterwards.

use std::fs;
use std::io::Result;

use rcflib::common::divector::DiVector;

use crate::bytes::Bytes;
use crate::parts::vectors::{block, list};
use crate::random::Random;
use crate::refusals::LENGTH;
use crate::values;

/// How many calls there are of each operation.
const ROUNDS: u64 = 40;
const ROOM: usize = 8;

const CALLS: &str = "crates/vector_replay/stdin";
const LINES: &str = "crates/vector_replay/stdout";

struct Call {
    operation: u64,
    lengths: [usize; 2],
    size: usize,
    gap: usize,
    x: f64,
    lists: [Vec<f64>; 4],
}

impl Call {
    fn new(random: &mut Random, operation: u64) -> Self {
        let n = random.below(ROOM as u64 + 1) as usize;
        let other = random.below(ROOM as u64 + 1) as usize;
        let m = if random.once_in(8) { other } else { n };
        let divisors: Vec<usize> = (1..=n).filter(|k| n % k == 0).collect();
        let size = match random.below(8) {
            0 => random.of(&[0, n, usize::MAX, 3]),
            _ if operation > 4 && n > 0 => random.of(&divisors),
            _ => random.below(n as u64 + 1) as usize,
        };
        Call {
            operation,
            lengths: [n, m],
            size,
            gap: random.of(&[0, 1, 1, 2, 2, 3, 4, n, 1 << 63]),
            x: values::any64(random, values::list64()),
            lists: std::array::from_fn(|_| list(random, ROOM)),
        }
    }

    fn words(&self) -> Vec<u64> {
        let [n, m] = self.lengths;
        let mut words = vec![self.operation, n as u64, m as u64];
        words.extend([self.size as u64, self.gap as u64, self.x.to_bits(), 0, 0]);
        words.extend(self.lists.iter().flatten().map(|x| x.to_bits()));
        words
    }

    /// The Rust's answer on vectors of one length; the lists are changed.
    fn ask(&mut self) -> (u8, u64) {
        let n = self.lengths[0];
        let [a, b, c, d] = &self.lists;
        let mut v = DiVector {
            high: a[..n].to_vec(),
            low: b[..n].to_vec(),
        };
        let mut other = DiVector {
            high: c[..n].to_vec(),
            low: d[..n].to_vec(),
        };
        let place = |found| match found {
            Ok(k) => (0, k as u64),
            Err(number) => (number, 0),
        };
        let mut answer = (0, 0);
        match self.operation {
            // A total starts from plus zero here.
            0 => answer.1 = (v.total() + 0.0).plain().to_bits(),
            1 if self.size < n => answer.1 = v.high_low_sum(self.size).plain().to_bits(),
            1 => answer.0 = LENGTH,
            2 => v.scale(self.x),
            3 => v.divide(self.size),
            4 => v.normalize(self.x),
            5 => answer = place(block(&v, self.size, self.gap)),
            6 => answer = place(block(&v, self.size, n)),
            7 => v.assign(&other),
            8 => v.add_to(&mut other),
            _ => v.add_to_scaled(&mut other, self.x),
        }
        for (list, part) in self
            .lists
            .iter_mut()
            .zip([v.high, v.low, other.high, other.low])
        {
            list[..n].copy_from_slice(&part);
        }
        answer
    }

    fn line(&mut self) -> String {
        let [n, m] = self.lengths;
        let (number, bits) = if n == m { self.ask() } else { (LENGTH, 0) };
        let mix = |sum: u64, x: &f64| sum.rotate_left(7).wrapping_add(x.plain().to_bits());
        let sum = self.lists.iter().flatten().fold(0, mix);
        format!("{} {number} {bits:016x} {sum:016x}\n", self.operation)
    }
}

pub fn write(random: &mut Random) -> Result<()> {
    let (mut calls, mut lines) = (Vec::new(), String::new());
    for k in 0..10 * ROUNDS {
        let mut call = Call::new(random, k % 10);
        calls.extend(call.words().iter().flat_map(|w| w.to_le_bytes()));
        lines += &call.line();
    }
    println!("{} vector calls, {} bytes", 10 * ROUNDS, calls.len());
    fs::write(CALLS, calls)?;
    fs::write(LINES, lines)
}
