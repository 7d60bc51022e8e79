//! Counts the cases of a part and shows the first ones that differ.

use std::time::Instant;

use crate::same::Same;

/// How many differing cases are shown in full.
const SHOWN: u64 = 5;

pub struct Tally {
    part: &'static str,
    compared: u64,
    differing: u64,
    start: Instant,
}

impl Tally {
    pub fn new(part: &'static str) -> Self {
        Tally {
            part,
            compared: 0,
            differing: 0,
            start: Instant::now(),
        }
    }

    /// One case: our answer and the Rust's. `case` says what was asked.
    #[inline]
    pub fn compare<T: Same + ?Sized>(&mut self, ours: &T, rust: &T, case: impl FnOnce() -> String) {
        self.compared += 1;
        if !ours.same(rust) {
            self.differing += 1;
            if self.differing <= SHOWN {
                self.show(case(), ours.show(), rust.show());
            }
        }
    }

    #[cold]
    fn show(&self, case: String, ours: String, rust: String) {
        println!("{}: {case}\n    ours {ours}\n    rust {rust}", self.part);
    }

    /// Prints how often each of some things came up. One below the least counts as a case that
    /// differs.
    pub fn owed(&mut self, what: &str, counts: &[(String, u64)], least: u64) {
        let each: Vec<String> = counts
            .iter()
            .map(|(name, n)| format!("{name} {n}"))
            .collect();
        println!("    {what}: {}", each.join(", "));
        for (name, n) in counts {
            self.compare(&(*n >= least), &true, || format!("{what}, {name}: {n}"));
        }
    }

    /// Prints the part's line and hands back how many cases differ.
    pub fn report(self) -> u64 {
        println!(
            "{:<12} {:>12} compared {:>12} differ {:>8.1} s",
            self.part,
            self.compared,
            self.differing,
            self.start.elapsed().as_secs_f64()
        );
        self.differing
    }
}
