//! What kinds exports are of, read off their bytes and what the plain program prints for them, and how
//! often each came up.

use std::collections::BTreeMap;

use super::making::zero;
use crate::both;
use crate::sheet::{Printed, Row};
use crate::tally::Tally;

/// A name, and whether a run is of this kind.
type Kind = (&'static str, fn(&Printed) -> bool);

/// What the rows of the drawer come to.
const RUNS: [Kind; 6] = [
    ("none skipped", |p| {
        !p.is_bad() && !p.rows.is_empty() && !p.has(Row::Skipped)
    }),
    ("all skipped", |p| {
        p.has(Row::Skipped) && !p.is_bad() && !p.has(Row::Quiet)
    }),
    ("all three", |p| {
        p.has(Row::Raised) && p.has(Row::Skipped) && !p.is_bad()
    }),
    ("the last skipped", |p| {
        matches!(p.rows.last(), Some((_, Row::Skipped))) && !p.is_bad()
    }),
    ("error 9 behind a skipped one", |p| {
        p.has(Row::Skipped) && error(p) == Some("9")
    }),
    ("error 10 behind a skipped one", |p| {
        p.has(Row::Skipped) && error(p) == Some("10")
    }),
];

/// The error of the row that ended the run.
fn error(printed: &Printed) -> Option<&str> {
    let bad = printed.last.strip_prefix("bad line ")?;
    Some(bad.split_once(' ')?.1)
}

/// The last field of a sound row without its quotes, and without the line's CR.
fn score(row: &[u8]) -> String {
    let field = row.rsplit(|&b| b == b',').next().unwrap_or_default();
    let plain = field.iter().filter(|b| !matches!(b, b'"' | b'\r'));
    plain.map(|&b| b as char).collect()
}

#[derive(Default)]
pub struct Kinds {
    /// Runs that end with counts, with error 9 and with error 10.
    pub ends: [u64; 3],
    runs: [u64; RUNS.len()],
    /// Skipped rows by how their zero is written.
    zeros: BTreeMap<String, u64>,
}

impl both::Kinds for Kinds {
    fn count(&mut self, input: &[u8], printed: &Printed) {
        let error = error(printed);
        let ends = [!printed.is_bad(), error == Some("9"), error == Some("10")];
        for (n, is) in self.ends.iter_mut().zip(ends) {
            *n += is as u64;
        }
        for (n, (_, is)) in self.runs.iter_mut().zip(RUNS) {
            *n += is(printed) as u64;
        }
        // A line end within quotes makes its row faulty, so that sound rows have a line each.
        let lines: Vec<&[u8]> = input.split(|&b| b == b'\n').collect();
        let skipped = printed.rows.iter().filter(|row| row.1 == Row::Skipped);
        for &(number, _) in skipped {
            let zero = score(lines[number as usize - 1]);
            *self.zeros.entry(zero).or_default() += 1;
        }
    }
}

impl Kinds {
    /// Prints the counts. Fewer than `least` of a kind count as a case that differs.
    pub fn report(&self, tally: &mut Tally, least: u64) {
        let runs = RUNS.iter().zip(self.runs);
        let runs: Vec<_> = runs.map(|((name, _), n)| (name.to_string(), n)).collect();
        tally.owed("exports by the drawer's rows", &runs, least);
        let zeros = (1..=3).flat_map(|before| (0..=6).map(move |behind| zero(before, behind)));
        let count = |zero: String| {
            let n = self.zeros.get(&zero).copied();
            (zero, n.unwrap_or(0))
        };
        let zeros: Vec<_> = zeros.map(count).collect();
        tally.owed("skipped rows by their score", &zeros, least);
    }
}
