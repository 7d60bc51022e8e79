//! Whole numbers of any size, none negative, for the ledger of demand 3.

use std::cmp::Ordering;

/// Digits of 64 bits, the least first, the last one not 0.
#[derive(Clone, Debug, Default, PartialEq, Eq)]
pub struct Big(Vec<u64>);

impl Big {
    pub fn new(n: u64) -> Self {
        Big(vec![n]).trimmed()
    }

    /// A float that is not negative, as how many times it has 2^-fraction: exact where that is whole.
    pub fn scaled(x: f64, fraction: i32) -> Self {
        let (significand, exponent) = parts(x);
        let shift = exponent + fraction;
        assert!(x >= 0.0 && (shift >= 0 || significand == 0), "{x:e}");
        Big::new(significand).up(shift.max(0) as usize)
    }

    fn trimmed(mut self) -> Self {
        while self.0.last() == Some(&0) {
            self.0.pop();
        }
        self
    }

    fn digit(&self, k: usize) -> u64 {
        self.0.get(k).copied().unwrap_or(0)
    }

    pub fn plus(&self, other: &Big) -> Self {
        let n = self.0.len().max(other.0.len()) + 1;
        let mut carry = 0;
        let add = |k| {
            let sum = self.digit(k) as u128 + other.digit(k) as u128 + carry;
            carry = sum >> 64;
            sum as u64
        };
        Big((0..n).map(add).collect()).trimmed()
    }

    /// The difference from a number that is not larger.
    pub fn minus(&self, other: &Big) -> Self {
        assert!(self >= other);
        let mut borrow = false;
        let take = |k| {
            let (d, first) = self.digit(k).overflowing_sub(other.digit(k));
            let (d, second) = d.overflowing_sub(borrow as u64);
            borrow = first || second;
            d
        };
        Big((0..self.0.len()).map(take).collect()).trimmed()
    }

    pub fn times(&self, other: &Big) -> Self {
        let mut out = vec![0u64; self.0.len() + other.0.len()];
        for (i, &a) in self.0.iter().enumerate() {
            let mut carry = 0u128;
            for (j, &b) in other.0.iter().enumerate() {
                let sum = a as u128 * b as u128 + out[i + j] as u128 + carry;
                out[i + j] = sum as u64;
                carry = sum >> 64;
            }
            out[i + other.0.len()] = carry as u64;
        }
        Big(out).trimmed()
    }

    pub fn squared(&self) -> Self {
        self.times(self)
    }

    /// Times 2^bits.
    pub fn up(&self, bits: usize) -> Self {
        let mut out = vec![0; bits / 64];
        out.extend(&self.0);
        match bits % 64 {
            0 => Big(out).trimmed(),
            rest => Big(out).times(&Big::new(1 << rest)),
        }
    }

    /// Divided by a number that is not 0: what is whole, and whether something is left.
    pub fn over(&self, n: u64) -> (Self, bool) {
        let mut rest = 0u128;
        let mut out = self.clone();
        for digit in out.0.iter_mut().rev() {
            let here = rest << 64 | *digit as u128;
            *digit = (here / n as u128) as u64;
            rest = here % n as u128;
        }
        (out.trimmed(), rest != 0)
    }

    /// Divided by 2^bits, likewise.
    pub fn down(&self, bits: usize) -> (Self, bool) {
        let whole = (bits / 64).min(self.0.len());
        let cut = self.0[..whole].iter().any(|&d| d != 0);
        let (out, left) = Big(self.0[whole..].to_vec()).over(1 << (bits % 64));
        (out, left || cut)
    }

    /// Near enough for a report.
    pub fn nearly(&self) -> f64 {
        self.0
            .iter()
            .rev()
            .fold(0.0, |x, &d| x * 2f64.powi(64) + d as f64)
    }
}

impl PartialOrd for Big {
    fn partial_cmp(&self, other: &Big) -> Option<Ordering> {
        Some(self.cmp(other))
    }
}

impl Ord for Big {
    fn cmp(&self, other: &Big) -> Ordering {
        let lengths = self.0.len().cmp(&other.0.len());
        lengths.then_with(|| self.0.iter().rev().cmp(other.0.iter().rev()))
    }
}

/// A finite float that is not negative as a whole number times a power of two.
pub fn parts(x: f64) -> (u64, i32) {
    let field = (x.to_bits() >> 52 & 0x7ff) as i32;
    let fraction = x.to_bits() & ((1 << 52) - 1);
    match field {
        0 => (fraction, -1074),
        _ => (fraction | 1 << 52, field - 1075),
    }
}
