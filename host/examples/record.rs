//! Records the invented month that the examples `week` and `month` judge.

mod ward;

use std::fmt::Write;
use std::process::ExitCode;

use ward::{wanted, About, Wanted, DRAWERS};

const HELP: &str = "\
Writes the invented month that the examples `week` and `month` judge:

    cargo run --offline --manifest-path host/Cargo.toml --example record > host/examples/month.txt
";

const HEAD: &str = "\
# An invented month on a ward: five drawers, six withdrawals a day from each.
#
# Written by the example `record`. A withdrawal takes the drawer's usual amount; one in four takes
# one less, one in four one more, by the top bits of the numbers n = n * 6364136223846793005 +
# 1442695040888963407 modulo 2^64, from 0 on. Besides:
#
# A morphine   calm all month
# B fentanyl   6 taken on top on the 12th, 5 on the 26th
# C oxycodone  4 more with every withdrawal from the 17th on, for a new clinic
# D ketamine   9 taken on top on the 19th
# E midazolam  two exports are spoiled, on the 9th and the 15th; the amounts jump from the 20th on
#
# day time drawer amount
";

const DAYS: u32 = 30;
const HOURS: [u64; 6] = [6, 9, 12, 15, 19, 22];

struct Random(u64);

impl Random {
    /// The next number's top bits: a whole number below `n`, a power of two.
    fn below(&mut self, n: u64) -> u64 {
        self.0 = self
            .0
            .wrapping_mul(6364136223846793005)
            .wrapping_add(1442695040888963407);
        self.0 >> (64 - n.trailing_zeros())
    }
}

/// What is taken at this hour of this day, if the export says it.
fn amount(random: &mut Random, about: &About, day: u32, hour: usize) -> Option<f32> {
    let taken = match random.below(4) {
        0 => about.usual - 1.0,
        1 => about.usual + 1.0,
        _ => about.usual,
    };
    match (about.name, day, hour) {
        ("B", 12, 3) => Some(taken + 6.0),
        ("B", 26, 1) => Some(taken + 5.0),
        ("C", 17.., _) => Some(taken + 4.0),
        ("D", 19, 4) => Some(taken + 9.0),
        ("E", 9, 2) | ("E", 15, 0) => None,
        ("E", 20.., 1 | 4) => Some(taken + 3.0),
        _ => Some(taken),
    }
}

fn record() -> String {
    let mut random = Random(0);
    let mut out = HEAD.to_string();
    for day in 1..=DAYS {
        for (k, hour) in HOURS.iter().enumerate() {
            for about in &DRAWERS {
                let minute = random.below(32);
                let taken = amount(&mut random, about, day, k);
                let taken = taken.map_or("spoiled".to_string(), |x| x.to_string());
                writeln!(out, "{day} {hour:02}:{minute:02} {} {taken}", about.name)
                    .expect("a string takes any line");
            }
        }
    }
    out
}

fn main() -> ExitCode {
    match wanted(0) {
        Wanted::Run(_) => print!("{}", record()),
        Wanted::Help => print!("{HELP}"),
        Wanted::Wrong(why) => {
            eprintln!("record: {why}");
            return ExitCode::from(2);
        }
    }
    ExitCode::SUCCESS
}

#[cfg(test)]
mod tests {
    #[test]
    fn month_txt_is_what_is_recorded() {
        assert_eq!(super::record(), super::ward::MONTH);
    }
}
