//! What the plain score watch and the plain export watch share, over the Rust's own thresholder: the
//! lines that a run prints, and its counts. And how these are read back.

use std::fmt::Display;
use std::io::{self, Write};

use rcflib::trcf::basicthresholder::BasicThresholder;

/// How many lines a run judges or skips at most.
const LINES: u64 = 65_536;

/// A run under way.
pub struct Sheet<W> {
    out: W,
    watch: BasicThresholder,
    quiet: u64,
    raised: u64,
    skipped: u64,
}

impl<W: Write> Sheet<W> {
    /// Prints the header.
    pub fn begin(mut out: W) -> io::Result<Self> {
        writeln!(out, "line threshold grade")?;
        Ok(Sheet {
            out,
            watch: BasicThresholder::new(0.0).expect("a discount of 0"),
            quiet: 0,
            raised: 0,
            skipped: 0,
        })
    }

    /// The lines judged or skipped.
    pub fn lines(&self) -> u64 {
        self.quiet + self.raised + self.skipped
    }

    pub fn is_full(&self) -> bool {
        self.lines() == LINES
    }

    /// Prints threshold and grade of a score and then counts it. A zero of either sign is skipped.
    pub fn score(&mut self, number: u64, score: f32) -> io::Result<()> {
        if score == 0.0 {
            self.skipped += 1;
            return writeln!(self.out, "{number} - -");
        }
        let (threshold, grade) = self.watch.primary_threshold_and_grade(score);
        self.watch.update_primary(score as f64);
        match grade > 0.0 {
            true => self.raised += 1,
            false => self.quiet += 1,
        }
        let bits = (threshold.to_bits(), grade.to_bits());
        writeln!(self.out, "{number} {:08x} {:08x}", bits.0, bits.1)
    }

    /// Ends the run at a bad line: its number, and in an export perhaps its error.
    pub fn bad_line(mut self, which: impl Display) -> io::Result<()> {
        writeln!(self.out, "bad line {which}")
    }

    /// Ends the run with its counts.
    pub fn counts(mut self) -> io::Result<()> {
        let counts = counts(self.quiet, self.raised, self.skipped);
        writeln!(self.out, "{counts}")
    }
}

fn counts(quiet: u64, raised: u64, skipped: u64) -> String {
    format!("quiet {quiet} raised {raised} skipped {skipped}")
}

/// What a row says of its score.
#[derive(Clone, Copy, PartialEq, Eq)]
pub enum Row {
    Quiet,
    Raised,
    Skipped,
}

/// A sheet read back: the number of each row and what it says, and the last line.
pub struct Printed {
    pub rows: Vec<(u64, Row)>,
    pub last: String,
}

impl Printed {
    /// None if it is no sheet.
    pub fn read(text: &[u8]) -> Option<Self> {
        let text = std::str::from_utf8(text).ok()?;
        let mut lines = text.strip_suffix('\n')?.split('\n');
        lines.next()?;
        let last = lines.next_back()?.to_string();
        let row = |line: &str| {
            let (number, says) = line.split_once(' ')?;
            let row = match says {
                "- -" => Row::Skipped,
                _ if says.ends_with(" 00000000") => Row::Quiet,
                _ => Row::Raised,
            };
            Some((number.parse().ok()?, row))
        };
        let rows = lines.map(row).collect::<Option<_>>()?;
        Some(Printed { rows, last })
    }

    pub fn has(&self, row: Row) -> bool {
        self.rows.iter().any(|&(_, other)| other == row)
    }

    /// Whether the run ended at a bad line.
    pub fn is_bad(&self) -> bool {
        self.last.starts_with("bad line")
    }

    /// Whether the counts, if the run has any, are those of the rows.
    pub fn adds_up(&self) -> bool {
        let count = |row| self.rows.iter().filter(|&&(_, other)| other == row).count() as u64;
        let rows = [Row::Quiet, Row::Raised, Row::Skipped].map(count);
        self.is_bad() || self.last == counts(rows[0], rows[1], rows[2])
    }
}
