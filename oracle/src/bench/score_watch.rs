//! The score watch against a plain Rust program that prints the same: two processes on the same
//! 65,536 lines from a file, each timed from its start to its end. What the plain one prints for
//! 1,000 lines, more than the score watch reads at once, is kept as its stdin and stdout.

use std::error::Error;
use std::fs;
use std::process::Command;

use crate::process::once;
use crate::random::Random;
use crate::scores::plain::{watch, PLAIN};

const LINES: usize = 65_536;
const ROUNDS: usize = 40;

/// The lines of the sample, and its files, from the repository's folder.
const SAMPLE: usize = 1_000;
const PATH: &str = "crates/score_watch/stdin";
const SAYS: &str = "crates/score_watch/stdout";

/// Most scores are calm, one in 50 is zero and one in 50 far over the others; one line in three has
/// its digits in upper case, and the last lacks its line end.
fn sound_line(k: usize, random: &mut Random) -> String {
    let score = match k % 50 {
        20 => 0.0,
        40 => (10.0 + 40.0 * random.fraction()) as f32,
        _ => (1.0 + 4.0 * random.fraction()) as f32,
    };
    match k % 3 {
        2 => format!("{:08X}", score.to_bits()),
        _ => format!("{:08x}", score.to_bits()),
    }
}

pub fn write(random: &mut Random) -> Result<(), Box<dyn Error>> {
    let lines: Vec<String> = (0..SAMPLE).map(|k| sound_line(k, random)).collect();
    let input = lines.join("\n");
    let mut says = Vec::new();
    watch(input.as_bytes(), &mut says)?;
    println!("{SAMPLE} scores, {} bytes", input.len());
    fs::write(PATH, input)?;
    fs::write(SAYS, says)?;
    Ok(())
}

pub fn run(random: &mut Random) -> Result<(), Box<dyn Error>> {
    let own = std::env::current_exe()?;
    let input = own.with_file_name("scores");
    let score = |random: &mut Random| (1.0 + 4.0 * random.fraction()) as f32;
    let lines: Vec<String> = (0..LINES)
        .map(|_| format!("{:08x}\n", score(random).to_bits()))
        .collect();
    fs::write(&input, lines.concat())?;
    let (mut a, mut b) = (f64::INFINITY, f64::INFINITY);
    for _ in 0..ROUNDS {
        let ours = once(Command::new("target/bin/score_watch"), &input)?;
        let mut rust = Command::new(&own);
        rust.arg(PLAIN);
        let rust = once(rust, &input)?;
        assert!(ours.0 == rust.0, "the two score watches print the same");
        (a, b) = (a.min(ours.1), b.min(rust.1));
    }
    let rate = |ns: f64| LINES as f64 / ns * 1e9;
    println!(
        "score watch, lines a second: ours {:.0}, rust {:.0}; time ours : rust {:.2}",
        rate(a),
        rate(b),
        a / b
    );
    Ok(())
}
