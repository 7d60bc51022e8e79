//! The ways out of a judgment, and how often each was taken.

use rcflib::common::descriptor::Descriptor;
use rcflib::rcf::Call;
use rcflib::trcf::types::CorrectionMode;

use super::{verdict, Reading, Verdict};
use crate::tally::Tally;

/// The nine exits in their order in the Rust.
const NAMES: [&str; 9] = [
    "skipped",
    "quiet",
    "ANOMALY_IN_SHINGLE by its grade",
    "NOISE",
    "CONDITIONAL_FORECAST",
    "ANOMALY_IN_SHINGLE by trigger",
    "FORECAST",
    "DATA_DRIFT",
    "raised",
];

/// Their places.
pub const SKIPPED: usize = 0;
pub const QUIET: usize = 1;
pub const GRADE: usize = 2;
pub const NOISE: usize = 3;
pub const FIELD: usize = 4;
pub const TRIGGER: usize = 5;
pub const FORECAST: usize = 6;
pub const DRIFT: usize = 7;
pub const RAISED: usize = 8;

/// Which exit a judgment took. Of the two ANOMALY_IN_SHINGLE only the later asks for an attribution.
pub fn exit(result: &Descriptor, calls: &[Call]) -> usize {
    let triggered = calls.iter().any(|c| matches!(c, Call::Attribution(_)));
    match verdict(result) {
        Verdict::Skipped => SKIPPED,
        Verdict::Quiet(_) => QUIET,
        Verdict::Raised(..) => RAISED,
        Verdict::Corrected(_, mode) => match mode {
            CorrectionMode::NOISE => NOISE,
            CorrectionMode::CONDITIONAL_FORECAST => FIELD,
            CorrectionMode::FORECAST => FORECAST,
            CorrectionMode::DATA_DRIFT => DRIFT,
            _ if triggered => TRIGGER,
            _ => GRADE,
        },
    }
}

/// How often each exit was taken, by strategy (height, DISTANCE) and auto adjust (off, on).
#[derive(Default)]
pub struct Exits([[[u64; 9]; 2]; 2]);

impl Exits {
    pub fn count(&mut self, reading: &Reading, auto_adjust: bool, exit: usize) {
        self.0[!reading.is_height() as usize][auto_adjust as usize][exit] += 1;
    }

    /// Prints the counts. One below `least` counts as a case that differs, but for the two exits
    /// that only auto adjust has.
    pub fn report(&self, tally: &mut Tally, least: u64) {
        for (k, name) in NAMES.iter().enumerate() {
            let mut cells = Vec::new();
            for (strategy, counts) in ["height", "DISTANCE"].iter().zip(&self.0) {
                for (adjust, list) in ["off", "on"].iter().zip(counts) {
                    cells.push(format!("{strategy}, {adjust} {}", list[k]));
                    let owed = *adjust == "on" || !matches!(k, FIELD | DRIFT);
                    tally.compare(&(list[k] >= least || !owed), &true, || {
                        format!("{name} under {strategy}, auto adjust {adjust}: {}", list[k])
                    });
                }
            }
            println!("    {name:<32} {}", cells.join("; "));
        }
    }
}
