//! The training load against two plain Rust programs that print the same, one by `writeln!` and one
//! with its digits by hand and a single write: three processes on the same two lines from a file, each
//! timed from its start to its end. What the plain one prints for the program's stdin is kept as its
//! stdout.

use std::error::Error;
use std::fs;
use std::process::Command;

use crate::process::once;
use crate::random::Random;
use crate::training::plain::{load, BY_HAND, PLAIN};

const LINES: u32 = 65_536;
const ROUNDS: usize = 200;

/// The program's files, from the repository's folder.
const PATH: &str = "crates/training_load/stdin";
const SAYS: &str = "crates/training_load/stdout";

pub fn write() -> Result<(), Box<dyn Error>> {
    let input = fs::read(PATH)?;
    let mut says = Vec::new();
    load(&input[..], &mut says)?;
    println!("a training load, {} bytes", says.len());
    fs::write(SAYS, says)?;
    Ok(())
}

/// The best times for so many lines, of ours and of both plain ones, in ns.
fn best(seed: u64, lines: u32) -> Result<[f64; 3], Box<dyn Error>> {
    let own = std::env::current_exe()?;
    let input = own.with_file_name("training");
    fs::write(&input, format!("{seed:016x}\n{lines}\n"))?;
    let plain = |word: &str| {
        let mut program = Command::new(&own);
        program.arg(word);
        once(program, &input)
    };
    let mut best = [f64::INFINITY; 3];
    for _ in 0..ROUNDS {
        let ours = once(Command::new("target/bin/training_load"), &input)?;
        let runs = [ours, plain(PLAIN)?, plain(BY_HAND)?];
        let same = runs.iter().all(|run| run.0 == runs[0].0);
        assert!(same, "the training loads print the same");
        for (least, run) in best.iter_mut().zip(&runs) {
            *least = least.min(run.1);
        }
    }
    Ok(best)
}

fn show(what: &str, places: usize, [ours, rust, hand]: [f64; 3]) {
    println!(
        "training load, {what}, best of {ROUNDS}: ours {ours:.places$}, rust {rust:.places$}, by hand {hand:.places$}"
    );
}

pub fn run(random: &mut Random) -> Result<(), Box<dyn Error>> {
    let seed = random.word();
    let all = best(seed, LINES)?;
    let none = best(seed, 0)?;
    let lines = LINES as f64;
    show("lines a second", 0, all.map(|ns| lines / ns * 1e9));
    println!(
        "training load, time ours : rust {:.2}, ours : by hand {:.2}",
        all[0] / all[1],
        all[0] / all[2]
    );
    show("us without a line", 0, none.map(|ns| ns / 1e3));
    let more = std::array::from_fn(|k| (all[k] - none[k]) / lines);
    show("ns a line beyond that", 1, more);
    Ok(())
}
