//! The program scan_replay: results of the noise pass and of the box against the Rust's, and how many
//! coordinates each scan reads against a scan of the oracle's own that looks at all of them.

use crate::random::Random;
use crate::scans::{kinds, making, replayed, Case, Operation, OPERATIONS};
use crate::tally::Tally;

const CASES: usize = 1_000_000;

/// How many cases the program gets in one run.
const RUN: usize = 50_000;

/// The most bytes of a case that is cut off.
const SHORT: usize = 80;

/// How often each kind of case has to come up.
const LEAST: u64 = 1_000;

/// One case: the oracle's scan has looked at every coordinate and bears the Rust's result out; our
/// line. Hands back the kinds that it is of.
fn compare_case(tally: &mut Tally, case: &Case, ours: &String) -> Vec<bool> {
    let found = case.scan();
    let shown = || format!("{case:?}");
    if case.fits() {
        tally.compare(&found.looked, &case.coordinates(), shown);
        let result = match (case.operation, found.hits > 0) {
            (Operation::Pass, true) => 1f32.to_bits(),
            (Operation::Pass, false) => 0f32.to_bits(),
            (Operation::Box, hit) => !hit as u32,
        };
        tally.compare(&result, &case.result(), shown);
    }
    tally.compare(ours, &case.line(&found), shown);
    kinds::of(case, &found)
}

/// A run of the program, both operations taking turns.
fn run(tally: &mut Tally, random: &mut Random, seen: &mut [Vec<u64>; 2]) {
    let operations = OPERATIONS.into_iter().cycle().take(RUN);
    let cases: Vec<Case> = operations
        .map(|operation| making::case(random, operation))
        .collect();
    let bytes: Vec<u8> = cases.iter().flat_map(Case::bytes).collect();
    let lines = replayed(&bytes).expect("scan_replay run");
    tally.compare(&lines.len(), &cases.len(), || "lines of a run".into());
    for (case, line) in cases.iter().zip(&lines) {
        let of = compare_case(tally, case, line);
        for (count, of) in seen[case.operation as usize].iter_mut().zip(of) {
            *count += of as u64;
        }
    }
}

/// Some short cases cut off at every byte: a line for each whole one.
fn cut_off(tally: &mut Tally, random: &mut Random) {
    let operations = OPERATIONS.into_iter().cycle();
    let cases: Vec<Case> = operations
        .map(|operation| making::case(random, operation))
        .filter(|case| case.bytes().len() <= SHORT)
        .take(8)
        .collect();
    let mut bytes = Vec::new();
    let mut lines = Vec::new();
    for case in &cases {
        bytes.extend(case.bytes());
        lines.push((bytes.len(), case.line(&case.scan())));
    }
    for end in 0..=bytes.len() {
        let whole = lines.iter().filter(|(at, _)| *at <= end);
        let whole: Vec<String> = whole.map(|(_, line)| line.clone()).collect();
        let ours = replayed(&bytes[..end]).expect("scan_replay run");
        tally.compare(&ours, &whole, || format!("{end} bytes of {cases:?}"));
    }
}

fn report(tally: &mut Tally, operation: Operation, seen: &[u64]) {
    let what = ["noise pass", "box"][operation as usize];
    let names = kinds::names(operation).into_iter().zip(seen);
    let all: Vec<_> = names
        .map(|((group, name), n)| (group, (name, *n)))
        .collect();
    for group in all.chunk_by(|a, b| a.0 == b.0) {
        let counts: Vec<(String, u64)> = group.iter().map(|(_, count)| count.clone()).collect();
        tally.owed(&format!("{what}, {}", group[0].0), &counts, LEAST);
    }
}

pub fn compare(tally: &mut Tally, random: &mut Random) {
    let mut seen = OPERATIONS.map(|operation| vec![0; kinds::names(operation).len()]);
    for _ in 0..CASES / RUN {
        run(tally, random, &mut seen);
    }
    cut_off(tally, random);
    for operation in OPERATIONS {
        report(tally, operation, &seen[operation as usize]);
    }
}
