//! Writes a sample of cases for the program `scan_replay`, of every kind, and the lines for them.

use std::fs;
use std::io::Result;

use super::{kinds, making, Case, OPERATIONS};
use crate::random::Random;

/// How many cases there are of each operation.
const CASES: usize = 200;

/// A case that shows no new kind has no more bytes than this.
const SHORT: usize = 400;

const STDIN: &str = "crates/scan_replay/stdin";
const STDOUT: &str = "crates/scan_replay/stdout";

/// Cases until every kind has come up, of which those are kept that show a new one; then short ones.
fn drawn(random: &mut Random, make: impl Fn(&mut Random) -> Case) -> Vec<Case> {
    let mut cases: Vec<Case> = Vec::new();
    let mut missing: Option<Vec<bool>> = None;
    while cases.len() < CASES {
        let case = make(random);
        let of = kinds::of(&case, &case.scan());
        let missing = missing.get_or_insert_with(|| vec![true; of.len()]);
        let open = missing.contains(&true);
        let new = missing.iter().zip(&of).any(|(missing, of)| *missing && *of);
        for (missing, of) in missing.iter_mut().zip(&of) {
            *missing &= !of;
        }
        if new || (!open && case.bytes().len() <= SHORT) {
            cases.push(case);
        }
    }
    cases
}

pub fn write(random: &mut Random) -> Result<()> {
    let [passes, boxes] =
        OPERATIONS.map(|operation| drawn(random, |random| making::case(random, operation)));
    let (mut bytes, mut lines) = (Vec::new(), String::new());
    for case in passes.iter().zip(&boxes).flat_map(|(a, b)| [a, b]) {
        bytes.extend(case.bytes());
        lines += &case.line(&case.scan());
    }
    // A case that is cut off has no line.
    let cut_off = boxes[0].bytes();
    bytes.extend(&cut_off[..cut_off.len() - 1]);
    println!("{} scans, {} bytes", 2 * CASES, bytes.len());
    fs::write(STDIN, bytes)?;
    fs::write(STDOUT, lines)
}
