//! The noise pass's first scan and the box's: cases for the program scan_replay, and what it has to
//! answer. The result is the Rust's. How many coordinates are read the Rust does not say, as it looks
//! at all of them: that comes from a scan of the oracle's own, which looks at all of them too.

pub mod kinds;
pub mod making;
pub mod sample;

use std::error::Error;
use std::fs;
use std::process::Command;

use rcflib::common::descriptor::Descriptor;
use rcflib::trcf::predictorcorrector::PredictorCorrector;

use crate::process::once;

const OURS: &str = "target/bin/scan_replay";

/// The Rust's normalization precision.
const PRECISION: f32 = 1e-3;

#[derive(Clone, Copy, Debug, PartialEq)]
pub enum Operation {
    Pass,
    Box,
}

pub const OPERATIONS: [Operation; 2] = [Operation::Pass, Operation::Box];

/// One case. Its number is the noise pass's base, or where the box's row starts in the points; its
/// slices are scale, shift, deviations and point, or box, scale, point and other point.
#[derive(Clone, Debug)]
pub struct Case {
    pub operation: Operation,
    pub number: usize,
    pub slices: [Vec<f32>; 4],
}

/// What one coordinate is tested for: that its value lies beyond a limit.
#[derive(Clone, Copy)]
pub struct Test {
    pub value: f32,
    pub low: f32,
    pub high: f32,
}

impl Test {
    /// Of the noise pass, which has no lower limit.
    pub fn of_pass(coordinate: f32, scale: f32, shift: f32) -> Test {
        Test {
            value: coordinate.abs() * scale,
            low: f32::NEG_INFINITY,
            high: PRECISION * (1.0 + shift.abs()),
        }
    }

    /// Of the box.
    pub fn of_box(edge: f32, scale: f32, coordinate: f32, other: f32) -> Test {
        let middle = scale * other;
        Test {
            value: scale * coordinate,
            low: middle - edge,
            high: middle + edge,
        }
    }

    pub fn is_hit(&self) -> bool {
        self.value < self.low || self.value > self.high
    }
}

/// What a scan of all coordinates has found.
#[derive(Clone, Copy, Default)]
pub struct Found {
    /// How many it has looked at.
    pub looked: usize,
    pub hits: usize,
    /// The first hit's place, counted from 0.
    pub first: Option<usize>,
}

impl Found {
    /// How many coordinates are read up to the first hit.
    pub fn read(&self) -> usize {
        self.first.map_or(self.looked, |place| place + 1)
    }
}

impl Case {
    /// How many coordinates there are to look at, where the slices fit.
    pub fn coordinates(&self) -> usize {
        match self.operation {
            Operation::Pass => self.slices[3].len(),
            Operation::Box => self.slices[0].len(),
        }
    }

    /// Which slices are too short.
    pub fn shorts(&self) -> [bool; 4] {
        let lengths = self.slices.each_ref().map(Vec::len);
        match self.operation {
            Operation::Pass => lengths.map(|n| n < self.number),
            Operation::Box => {
                let [least, scale, point, other] = lengths;
                let behind = |n: usize| n.saturating_sub(self.number);
                [
                    false,
                    scale < least,
                    behind(point) < least,
                    behind(other) < least,
                ]
            }
        }
    }

    /// Whether no index runs out.
    pub fn fits(&self) -> bool {
        let based = self.operation == Operation::Box || self.number > 0;
        based && !self.shorts().contains(&true)
    }

    /// The point's coordinate i of those that are scanned.
    pub fn coordinate(&self, i: usize) -> f32 {
        match self.operation {
            Operation::Pass => self.slices[3][i],
            Operation::Box => self.slices[2][self.number + i],
        }
    }

    /// The test of coordinate i, or of another float in its place.
    pub fn test(&self, i: usize, coordinate: f32) -> Test {
        let [a, b, _, d] = &self.slices;
        match self.operation {
            Operation::Pass => {
                let column = i % self.number;
                Test::of_pass(coordinate, a[column], b[column])
            }
            Operation::Box => Test::of_box(a[i], b[i], coordinate, d[self.number + i]),
        }
    }

    /// Looks at every coordinate, and at none where the slices do not fit.
    pub fn scan(&self) -> Found {
        let mut found = Found::default();
        if !self.fits() {
            return found;
        }
        for i in 0..self.coordinates() {
            found.looked += 1;
            if self.test(i, self.coordinate(i)).is_hit() {
                found.hits += 1;
                found.first.get_or_insert(i);
            }
        }
        found
    }

    /// The Rust's result: the factor's bits, or 1 for within and 0 for not. Where an index would run
    /// out, 0.
    pub fn result(&self) -> u32 {
        if !self.fits() {
            return 0;
        }
        let [a, b, c, d] = &self.slices;
        match self.operation {
            Operation::Pass => {
                let descriptor = Descriptor {
                    scale: Some(a.clone()),
                    shift: Some(b.clone()),
                    difference_deviations: Some(c.clone()),
                    ..Descriptor::default()
                };
                PredictorCorrector::noise_pass(self.number, &descriptor, d).to_bits()
            }
            Operation::Box => PredictorCorrector::within_box(a, self.number, b, c, d) as u32,
        }
    }

    /// The line that the program has to print.
    pub fn line(&self, found: &Found) -> String {
        let operation = self.operation as u8;
        format!("{operation} {:08x} {:04}\n", self.result(), found.read())
    }

    /// The case as the program reads it: operation, number and lengths in two bytes each, the floats.
    pub fn bytes(&self) -> Vec<u8> {
        let lengths = self.slices.each_ref().map(Vec::len);
        let head = [self.operation as usize, self.number];
        let head = head.iter().chain(&lengths);
        let mut bytes: Vec<u8> = head.flat_map(|n| (*n as u16).to_le_bytes()).collect();
        bytes.extend(self.slices.iter().flatten().flat_map(|x| x.to_le_bytes()));
        bytes
    }
}

/// The lines that our program prints for these bytes, each with its end.
pub fn replayed(bytes: &[u8]) -> Result<Vec<String>, Box<dyn Error>> {
    let input = std::env::current_exe()?.with_file_name("scans");
    fs::write(&input, bytes)?;
    let (printed, _) = once(Command::new(OURS), &input)?;
    let lines = printed.split_inclusive(|&b| b == b'\n');
    Ok(lines
        .map(|line| String::from_utf8_lossy(line).into())
        .collect())
}
