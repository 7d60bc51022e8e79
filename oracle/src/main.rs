//! Compares our library with the Rust, bit for bit. See `run` for its use.

mod bench;
mod big;
mod both;
mod buffers;
mod bytes;
mod chain;
mod changed;
mod digits;
mod exports;
mod fresh;
mod grades;
mod ledger;
mod ours;
mod parts;
mod pool;
mod process;
mod random;
mod readings;
mod refusals;
mod same;
mod sample;
mod scans;
mod scores;
mod sheet;
mod statistics;
mod tally;
mod thresholders;
mod training;
mod values;
mod vector_sample;
mod vectors;

use std::process::ExitCode;

use parts::PARTS;
use random::Random;
use tally::Tally;

/// The seed where none is given.
const SEED: u64 = 20_260_622;

/// What the command line asks for.
struct Wanted {
    seed: u64,
    parts: Vec<String>,
}

fn wanted() -> Result<Wanted, String> {
    let mut wanted = Wanted {
        seed: SEED,
        parts: Vec::new(),
    };
    for word in std::env::args().skip(1) {
        if let Some(number) = word.strip_prefix("seed=") {
            wanted.seed = number.parse().map_err(|_| format!("no seed: {number}"))?;
        } else if word == "bench" || word == "sample" || PARTS.iter().any(|p| p.name == word) {
            wanted.parts.push(word);
        } else {
            let names: Vec<&str> = PARTS.iter().map(|p| p.name).collect();
            return Err(format!(
                "no part {word}; parts: {} bench sample",
                names.join(" ")
            ));
        }
    }
    if wanted.parts.is_empty() {
        wanted.parts = PARTS.iter().map(|p| p.name.to_string()).collect();
    }
    Ok(wanted)
}

/// Runs one part and says how many of its cases differ. Every part starts from the seed, so that it
/// has the same cases alone and among others.
fn run(name: &str, seed: u64) -> u64 {
    if name == "bench" {
        bench::run(&mut Random::new(seed));
        return 0;
    }
    if name == "sample" {
        sample::write(&mut Random::new(seed)).expect("a sample written");
        vector_sample::write(&mut Random::new(seed)).expect("vector calls written");
        buffers::sample::write(&mut Random::new(seed)).expect("calls on buffers written");
        parts::exits::write().expect("readings written");
        bench::score_watch::write(&mut Random::new(seed)).expect("scores written");
        bench::export_watch::write(&mut Random::new(seed)).expect("an export written");
        scans::sample::write(&mut Random::new(seed)).expect("scans written");
        bench::training_load::write().expect("a training load written");
        return 0;
    }
    let part = PARTS.iter().find(|p| p.name == name).expect("a known part");
    let mut tally = Tally::new(part.name);
    (part.compare)(&mut tally, &mut Random::new(seed));
    tally.report()
}

/// Runs the plain program that a word names, and says whether it names one.
fn is_plain(word: &str) -> bool {
    match word {
        scores::plain::PLAIN => scores::plain::plain().expect("lines read"),
        exports::plain::PLAIN => exports::plain::plain().expect("an export read"),
        training::plain::PLAIN => training::plain::plain().expect("lines read"),
        training::plain::BY_HAND => training::plain::by_hand().expect("lines read"),
        _ => return false,
    }
    true
}

fn main() -> ExitCode {
    if is_plain(&std::env::args().nth(1).unwrap_or_default()) {
        return ExitCode::SUCCESS;
    }
    let wanted = match wanted() {
        Ok(wanted) => wanted,
        Err(why) => {
            eprintln!("oracle: {why}");
            return ExitCode::from(2);
        }
    };
    println!("seed {}", wanted.seed);
    let differing: u64 = wanted.parts.iter().map(|p| run(p, wanted.seed)).sum();
    if differing == 0 {
        ExitCode::SUCCESS
    } else {
        ExitCode::FAILURE
    }
}
