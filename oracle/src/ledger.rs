//! Demand 3's ledger over whole numbers. Sum, squares and weight are counted in steps of 2^-256, each
//! as a pair that the exact fraction lies between: with a discount one is rounded down and the other
//! up, so each score puts them at most two steps further apart; with discount 0 they are equal. No
//! root is taken: a number is held against the threshold by squares.

use std::cmp::Ordering;

use crate::big::{parts, Big};

const FRACTION: i32 = 256;

#[derive(Clone, Default)]
struct Sums {
    sum: Big,
    squares: Big,
    weight: Big,
}

pub struct Ledger {
    discount: f64,
    z: f32,
    least: Sums,
    most: Sums,
    pub counted: u64,
    pub largest: f32,
}

/// A number that may have been cut, taken up to the next step.
fn next((whole, cut): (Big, bool)) -> Big {
    whole.plus(&Big::new(cut as u64))
}

fn step(x: f64) -> Big {
    Big::scaled(x, FRACTION)
}

impl Ledger {
    pub fn new(discount: f64, z: f32) -> Self {
        Ledger {
            discount,
            z,
            least: Sums::default(),
            most: Sums::default(),
            counted: 0,
            largest: 0.0,
        }
    }

    /// A number times the factor: what is whole of it, and whether something is left. The factor is
    /// the smaller of 1 - discount and 1 - 1/(n + 2).
    fn faded(&self, x: &Big) -> (Big, bool) {
        let n = self.counted;
        if self.discount == 0.0 {
            return (x.clone(), false);
        }
        let (d, exponent) = parts(self.discount);
        let bits = -exponent as usize;
        let one = Big::new(1).up(bits);
        if Big::new(d).times(&Big::new(n + 2)) >= one {
            return x.times(&one.minus(&Big::new(d))).down(bits);
        }
        x.times(&Big::new(n + 1)).over(n + 2)
    }

    /// Counts a score that is not 0.
    pub fn count(&mut self, score: f32) {
        let (x, one) = (step(score as f64), step(1.0));
        // The square of an f32 is exact in f64.
        let square = step(score as f64 * score as f64);
        let (a, b) = (&self.least, &self.most);
        let least = Sums {
            sum: self.faded(&a.sum).0.plus(&x),
            squares: self.faded(&a.squares).0.plus(&square),
            weight: self.faded(&a.weight).0.plus(&one),
        };
        let most = Sums {
            sum: next(self.faded(&b.sum)).plus(&x),
            squares: next(self.faded(&b.squares)).plus(&square),
            weight: next(self.faded(&b.weight)).plus(&one),
        };
        (self.least, self.most) = (least, most);
        self.counted += 1;
        self.largest = self.largest.max(score);
    }

    /// Weight × squares - sum × sum, as the pair's least or most, in steps of 2^-512.
    fn spread(&self, most: bool) -> Big {
        let (a, b) = if most {
            (&self.most, &self.least)
        } else {
            (&self.least, &self.most)
        };
        let (product, square) = (a.weight.times(&a.squares), b.sum.squared());
        if product < square {
            return Big::default();
        }
        product.minus(&square)
    }

    /// A number x, in steps, held against the threshold: weight × x - sum against z × root(spread),
    /// each side taken as small or as large as the pairs leave it.
    fn held(&self, x: &Big, small: bool) -> Ordering {
        let (a, b) = if small {
            (&self.least, &self.most)
        } else {
            (&self.most, &self.least)
        };
        let product = a.weight.times(x);
        let sum = b.sum.up(FRACTION as usize);
        if product < sum {
            return Ordering::Less;
        }
        let (z, exponent) = parts(self.z as f64);
        let left = product.minus(&sum).squared().up((-2 * exponent) as usize);
        let right = self.spread(small).times(&Big::new(z).squared());
        left.cmp(&right.up(2 * FRACTION as usize))
    }

    /// Whether x may lie under the threshold, at it or under it, over it.
    pub fn may_be_under(&self, x: &Big) -> bool {
        self.held(x, true) == Ordering::Less
    }

    pub fn may_be_at_or_under(&self, x: &Big) -> bool {
        self.held(x, true) != Ordering::Greater
    }

    pub fn may_be_over(&self, x: &Big) -> bool {
        self.held(x, false) == Ordering::Greater
    }

    /// M over 2^bits.
    pub fn part_of_largest(&self, bits: usize) -> Big {
        let (part, cut) = step(self.largest as f64).down(bits);
        assert!(!cut);
        part
    }

    /// Whether the watch's threshold is certainly within M/2048 of the ledger's.
    pub fn is_near(&self, threshold: f32) -> bool {
        if !threshold.is_finite() || threshold < 0.0 {
            return false;
        }
        let (t, room) = (step(threshold as f64), self.part_of_largest(11));
        let low = t >= room && self.may_be_over(&t.minus(&room));
        !self.may_be_under(&t.plus(&room)) && !low
    }

    /// Whether a score M/1024 or more under the threshold may be at hand.
    pub fn far_under(&self, score: f32) -> bool {
        let x = step(score as f64).plus(&self.part_of_largest(10));
        self.may_be_at_or_under(&x)
    }

    /// Whether one more than M/1024 over it may be.
    pub fn far_over(&self, score: f32) -> bool {
        let (x, room) = (step(score as f64), self.part_of_largest(10));
        x >= room && self.may_be_over(&x.minus(&room))
    }

    /// How far a threshold is from the ledger's, in parts of M/2048, nearly.
    pub fn distance(&self, threshold: f32) -> f64 {
        let unit = 2f64.powi(-FRACTION);
        let sum = self.least.sum.nearly() * unit;
        let root = self.spread(false).nearly().sqrt() * unit;
        let exact = (sum + self.z as f64 * root) / (self.least.weight.nearly() * unit);
        (threshold as f64 - exact).abs() * 2048.0 / self.largest as f64
    }
}
