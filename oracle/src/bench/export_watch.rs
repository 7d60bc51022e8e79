//! The program export_watch against the plain Rust one that prints the same: two processes on the
//! same export from a file, each timed from its start to its end. What the plain one prints for an
//! export longer than one read is kept as the program's stdin and stdout.

use std::error::Error;
use std::fs;
use std::process::Command;

use crate::exports::plain::{watch, PLAIN};
use crate::process::once;
use crate::random::Random;

const ROUNDS: usize = 9;

/// The rows of the sample, and its files, from the repository's folder.
const SAMPLE: u64 = 600;
const PATH: &str = "crates/export_watch/stdin";
const SAYS: &str = "crates/export_watch/stdout";

/// Mostly calm scores, one row in 50 zero and one far over the others.
fn score(k: u64, random: &mut Random) -> String {
    match k % 50 {
        20 => "0".into(),
        40 => format!("{:.1}", 10.0 + 40.0 * random.fraction()),
        _ => format!("{:.6}", 1.0 + 4.0 * random.fraction()),
    }
}

/// Three drawers; a field quoted, leading zeros or a CR and LF here and there; the last row lacks its
/// line end.
fn sample_row(k: u64, random: &mut Random) -> String {
    let drawer = [417, 417, 88, 9][(k % 4) as usize];
    let score = score(k / 2, random);
    let row = match k % 7 {
        3 => format!("\"{drawer}\",{k},{score}"),
        5 => format!("{drawer:05},\"{k:04}\",\"{score}\""),
        _ => format!("{drawer},{k},{score}"),
    };
    match k {
        SAMPLE => row,
        _ if k % 5 == 2 => row + "\r\n",
        _ => row + "\n",
    }
}

pub fn write(random: &mut Random) -> Result<(), Box<dyn Error>> {
    let rows: Vec<String> = (1..=SAMPLE).map(|k| sample_row(k, random)).collect();
    let input = format!("drawer,seen,score\r\n{}", rows.concat());
    let mut says = Vec::new();
    watch(input.as_bytes(), &mut says)?;
    println!("an export of {SAMPLE} rows, {} bytes", input.len());
    fs::write(PATH, input)?;
    fs::write(SAYS, says)?;
    Ok(())
}

/// The rows of one export: so many, one in `often` of the watched drawer.
fn rows(rows: u64, often: u64, random: &mut Random) -> String {
    let mut text = String::from("drawer,seen,score\n");
    for k in 0..rows {
        let drawer = 417 + k % often;
        let score = 1.0 + 4.0 * random.fraction();
        text += &format!("{drawer},{},{score:.6}\n", k + 1);
    }
    text
}

/// The best time and the middle one, in ns.
fn best_and_middle(mut times: Vec<f64>) -> [f64; 2] {
    times.sort_by(f64::total_cmp);
    [times[0], times[times.len() / 2]]
}

fn time(what: &str, count: u64, often: u64, random: &mut Random) -> Result<(), Box<dyn Error>> {
    let own = std::env::current_exe()?;
    let input = own.with_file_name("export");
    fs::write(&input, rows(count, often, random))?;
    let (mut ours, mut rust) = (Vec::new(), Vec::new());
    for _ in 0..ROUNDS {
        let a = once(Command::new("target/bin/export_watch"), &input)?;
        let mut plain = Command::new(&own);
        plain.arg(PLAIN);
        let b = once(plain, &input)?;
        assert!(a.0 == b.0, "the two export watches print the same");
        ours.push(a.1);
        rust.push(b.1);
    }
    let (a, b) = (best_and_middle(ours), best_and_middle(rust));
    let rate = |ns: f64| count as f64 / ns * 1e9;
    for (which, a, b) in [("best", a[0], b[0]), ("middle", a[1], b[1])] {
        println!(
            "export watch, {what}, rows a second, {which} of {ROUNDS}: ours {:.0}, rust {:.0}; time ours : rust {:.2}",
            rate(a),
            rate(b),
            a / b
        );
    }
    Ok(())
}

pub fn run(random: &mut Random) -> Result<(), Box<dyn Error>> {
    time("400,000 rows, a tenth watched", 400_000, 10, random)?;
    time("65,000 rows, all watched", 65_000, 1, random)
}
