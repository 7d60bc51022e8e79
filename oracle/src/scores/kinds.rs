//! What kinds inputs of the score watch are of, read off their bytes and what the plain program prints
//! for them, and how often each came up.

use std::collections::BTreeMap;

use super::plain;
use crate::both;
use crate::sheet::{Printed, Row};
use crate::tally::Tally;

/// A run: its input's lines and whether the last lacks its line end, and what was printed.
struct Run<'a> {
    lines: Vec<&'a [u8]>,
    open: bool,
    rows: Vec<(Row, f32)>,
    printed: &'a Printed,
}

/// A name, and whether a run is of this kind.
type Kind = (&'static str, fn(&Run) -> bool);

const GROUPS: &[(&str, &[Kind])] = &[
    (
        "runs with counts, by their lines",
        &[
            ("none", |r| r.counts(false, false, false)),
            ("quiet", |r| r.counts(true, false, false)),
            ("skipped", |r| r.counts(false, false, true)),
            ("quiet and raised", |r| r.counts(true, true, false)),
            ("quiet and skipped", |r| r.counts(true, false, true)),
            ("all three", |r| r.counts(true, true, true)),
        ],
    ),
    (
        "skipped lines",
        &[
            ("plus zero", |r| r.any(Row::Skipped, |x| x.to_bits() == 0)),
            ("minus zero", |r| r.any(Row::Skipped, |x| x.to_bits() != 0)),
            ("the first", |r| {
                r.rows.first().is_some_and(|row| row.0 == Row::Skipped)
            }),
            ("the last", |r| r.last_skipped() && !r.open),
            ("the last and open", |r| r.last_skipped() && r.open),
            ("two in a row", |r| r.follow(&[Row::Skipped, Row::Skipped])),
            ("one between quiet ones", |r| {
                r.follow(&[Row::Quiet, Row::Skipped, Row::Quiet])
            }),
            ("before a raised one", |r| {
                r.follow(&[Row::Skipped, Row::Raised])
            }),
            ("behind a raised one", |r| {
                r.follow(&[Row::Raised, Row::Skipped])
            }),
            ("before the tenth judged one", |r| r.before_tenth()),
        ],
    ),
    (
        "judged lines",
        &[
            ("negative, quiet", |r| r.any(Row::Quiet, |x| x < 0.0)),
            ("negative, raised", |r| r.any(Row::Raised, |x| x < 0.0)),
            ("subnormal, quiet", |r| r.any(Row::Quiet, f32::is_subnormal)),
            ("subnormal, raised", |r| {
                r.any(Row::Raised, f32::is_subnormal)
            }),
            ("next to zero", |r| {
                r.any(Row::Quiet, |x| x.abs().to_bits() == 1)
            }),
            ("huge, quiet", |r| r.any(Row::Quiet, |x| x.abs() > 1e36)),
            ("huge, raised", |r| r.any(Row::Raised, |x| x.abs() > 1e36)),
            ("upper case", |r| r.any_byte(u8::is_ascii_uppercase)),
            ("lower case", |r| r.any_byte(u8::is_ascii_lowercase)),
        ],
    ),
    (
        "where the bad line is",
        &[
            ("first", |r| r.printed.is_bad() && r.rows.is_empty()),
            ("last", |r| r.bad_last() && !r.open),
            ("last and open", |r| r.bad_last() && r.open),
            ("before others", |r| r.printed.is_bad() && !r.bad_last()),
        ],
    ),
];

/// Bad lines with no skipped one before them, and with one.
const BAD: [&str; 2] = ["bad lines", "bad lines behind a skipped one"];

/// What makes a line bad.
const FAULTS: [&str; 12] = [
    "empty",
    "too short",
    "too long",
    "CR",
    "space",
    "sign",
    "NUL",
    "a byte over 127",
    "another byte",
    "infinite",
    "NaN",
    "line 65,537",
];

/// What makes a line bad that is not the 65,537th.
fn fault(line: &[u8]) -> &'static str {
    match line.iter().find(|b| !b.is_ascii_hexdigit()) {
        Some(b'\r') => "CR",
        Some(b' ') => "space",
        Some(b'+' | b'-') => "sign",
        Some(0) => "NUL",
        Some(128..) => "a byte over 127",
        Some(_) => "another byte",
        None => match line.len() {
            0 => "empty",
            1..8 => "too short",
            8 if line.ends_with(b"800000") => "infinite",
            8 => "NaN",
            _ => "too long",
        },
    }
}

impl<'a> Run<'a> {
    fn new(input: &'a [u8], printed: &'a Printed) -> Self {
        let mut lines: Vec<&[u8]> = input.split(|&b| b == b'\n').collect();
        let open = lines.last().is_some_and(|line| !line.is_empty());
        if !open {
            lines.pop();
        }
        let score = |line: &&[u8]| plain::score(line).expect("a score");
        let rows = printed.rows.iter().map(|row| row.1);
        Run {
            rows: rows.zip(lines.iter().map(score)).collect(),
            lines,
            open,
            printed,
        }
    }

    fn any(&self, row: Row, is: fn(f32) -> bool) -> bool {
        self.rows.iter().any(|&(is_row, x)| is_row == row && is(x))
    }

    /// Whether such a byte stands in a sound line.
    fn any_byte(&self, is: fn(&u8) -> bool) -> bool {
        let lines = &self.lines[..self.rows.len()];
        lines.iter().any(|line| line.iter().any(is))
    }

    fn counts(&self, quiet: bool, raised: bool, skipped: bool) -> bool {
        let has = [Row::Quiet, Row::Raised, Row::Skipped].map(|row| self.printed.has(row));
        !self.printed.is_bad() && has == [quiet, raised, skipped]
    }

    fn last_skipped(&self) -> bool {
        let last = self.rows.last();
        !self.printed.is_bad() && last.is_some_and(|row| row.0 == Row::Skipped)
    }

    /// Whether such rows come one behind the other.
    fn follow(&self, wanted: &[Row]) -> bool {
        let same = |rows: &[(Row, f32)]| rows.iter().zip(wanted).all(|(a, b)| a.0 == *b);
        self.rows.windows(wanted.len()).any(same)
    }

    fn before_tenth(&self) -> bool {
        let mut judged = (0..self.rows.len()).filter(|&k| self.rows[k].0 != Row::Skipped);
        judged.nth(9).is_some_and(|tenth| tenth > 9)
    }

    fn bad_last(&self) -> bool {
        self.printed.is_bad() && self.rows.len() + 1 == self.lines.len()
    }

    /// What makes the line bad that ended the run.
    fn fault(&self) -> Option<&'static str> {
        match self.rows.len() {
            _ if !self.printed.is_bad() => None,
            65_536 => Some("line 65,537"),
            before => Some(fault(self.lines[before])),
        }
    }
}

#[derive(Default)]
pub struct Kinds {
    seen: BTreeMap<(&'static str, &'static str), u64>,
}

impl both::Kinds for Kinds {
    fn count(&mut self, input: &[u8], printed: &Printed) {
        let run = Run::new(input, printed);
        let mut add = |group, name| *self.seen.entry((group, name)).or_default() += 1;
        for (group, kinds) in GROUPS {
            for (name, is) in *kinds {
                if is(&run) {
                    add(group, name);
                }
            }
        }
        if let Some(fault) = run.fault() {
            add(BAD[printed.has(Row::Skipped) as usize], fault);
        }
    }
}

impl Kinds {
    /// Prints the counts. Fewer than `least` of a kind count as a case that differs.
    pub fn report(&self, tally: &mut Tally, least: u64) {
        let mut owed = |group: &'static str, names: Vec<&'static str>| {
            let count = |name: &'static str| {
                let n = self.seen.get(&(group, name)).copied();
                (name.to_string(), n.unwrap_or(0))
            };
            let counts: Vec<_> = names.into_iter().map(count).collect();
            tally.owed(group, &counts, least);
        };
        for (group, kinds) in GROUPS {
            owed(group, kinds.iter().map(|kind| kind.0).collect());
        }
        for group in BAD {
            owed(group, FAULTS.to_vec());
        }
    }
}
