//! The program training_load against the plain Rust one: what it prints, line by line, and how much of
//! its input it reads, from a file or a socket.

use std::fs;
use std::path::PathBuf;
use std::process::Command;

use crate::changed::change;
use crate::process::{read_of_file, read_of_socket};
use crate::random::Random;
use crate::tally::Tally;
use crate::training::kinds::Kinds;
use crate::training::making::{self, Faulty, SEEDS};
use crate::training::plain;

const OURS: &str = "target/bin/training_load";
const LOAD: &str = "crates/training_load";
const CASES: &str = "crates/training_cases";

/// More than these bytes of output are not in the stored cases, but their last line is.
const STORED: usize = 180;

/// How many seeds get all 65,536 lines.
const LONG: usize = 24;

/// Counts that are tried in every width, the count up to which all are tried, and how many others.
const COUNTS: [u32; 10] = [0, 1, 2, 9, 10, 99, 100, 9_999, 65_535, 65_536];
const EVERY: u32 = 1_000;
const OTHERS: u64 = 20;

/// How often there is each notable score, each fault, and an input cut off at every byte.
const ROUNDS: u64 = 20;

const CHANGED: u64 = 2_000;

/// Bytes that changed inputs get.
const BYTES: &[u8] = b"\r\n\n +-.09aFgx\0\xff";

/// How many scores there have to be, and how many of each kind of score and of input.
const SCORES: u64 = 1_000_000;
const LEAST: u64 = 20;

/// How much of an input is shown.
const SHOWN: usize = 60;

struct Runs<'a> {
    tally: &'a mut Tally,
    random: &'a mut Random,
    input: PathBuf,
    kinds: Kinds,
}

fn shown(bytes: &[u8]) -> String {
    let first = bytes[..bytes.len().min(SHOWN)].escape_ascii();
    format!("{} bytes, {first}", bytes.len())
}

fn lines(text: &[u8]) -> Vec<String> {
    let lines = text.split_inclusive(|&b| b == b'\n');
    lines
        .map(|line| String::from_utf8_lossy(line).into())
        .collect()
}

impl Runs<'_> {
    /// Compares what they print and how much ours reads, and hands back what the plain one prints.
    fn run(&mut self, what: &str, bytes: &[u8]) -> Vec<String> {
        let mut rust = Vec::new();
        plain::load(bytes, &mut rust).expect("bytes read and written");
        let rust = lines(&rust);
        let from_file = self.random.once_in(2);
        let run = match from_file {
            true => {
                fs::write(&self.input, bytes).expect("an input written");
                read_of_file(Command::new(OURS), &self.input)
            }
            false => read_of_socket(Command::new(OURS), bytes),
        };
        let (ours, read) = run.expect(OURS);
        self.kinds.input(bytes, from_file);
        self.compare_lines(what, bytes, &lines(&ours), &rust);
        self.tally.compare(&read, &plain::needed(bytes), || {
            format!("{what}: how much is read of {}", shown(bytes))
        });
        rust
    }

    fn compare_lines(&mut self, what: &str, bytes: &[u8], ours: &[String], rust: &[String]) {
        let input = || format!("{what}: {}", shown(bytes));
        self.tally.compare(&ours.len(), &rust.len(), || {
            format!("lines for {}", input())
        });
        for (k, (a, b)) in ours.iter().zip(rust).enumerate() {
            self.tally
                .compare(a, b, || format!("line {} for {}", k + 1, input()));
        }
        let scores = rust.iter().map(|line| line.trim_end());
        scores
            .filter_map(|line| u32::from_str_radix(line, 16).ok())
            .for_each(|bits| self.kinds.score(bits));
    }

    /// An input whose faulty line is known, and how much of it is to be read.
    fn faulty(&mut self, faulty: &Faulty) {
        let rust = self.run("faulty", &faulty.bytes);
        let case = || format!("the plain one on {}", shown(&faulty.bytes));
        let says = vec![format!("bad line {}\n", faulty.line)];
        self.tally.compare(&rust, &says, case);
        let needed = plain::needed(&faulty.bytes);
        self.tally.compare(&needed, &faulty.read, case);
    }

    /// A sound input with other bytes behind it, and without its last line end: as many lines as the
    /// count says.
    fn counted(&mut self, count: &str) {
        let seed = making::seed(self.random);
        let mut closed = making::sound(seed, count, self.random);
        closed.extend(making::behind(self.random));
        let open = making::open(seed, count, self.random);
        let wanted = count.parse().expect("a count");
        for bytes in [closed, open] {
            let rust = self.run("counted", &bytes);
            self.tally.compare(&rust.len(), &wanted, || {
                format!("the plain one's lines for {}", shown(&bytes))
            });
        }
    }
}

/// What crates/training_cases is to print for a case.
fn told(case: &[u8], rust: &[String]) -> String {
    let text = rust.concat();
    let head = format!(
        "{} of {} taken, {} printed\n",
        plain::needed(case),
        case.len(),
        text.len()
    );
    match (text.len() > STORED, rust.last()) {
        (true, Some(last)) => head + last,
        _ => head + &text,
    }
}

/// The plain program prints what is stored, and so does ours. Each stored case has a `%` behind it.
fn stored(runs: &mut Runs) {
    let read = |folder: &str, name: &str| fs::read(format!("{folder}/{name}")).expect(folder);
    let rust = runs.run("stored", &read(LOAD, "stdin")).concat();
    let says = read(LOAD, "stdout");
    runs.tally
        .compare(&says[..], rust.as_bytes(), || LOAD.into());
    let cases = read(CASES, "stdin");
    let mut rust = String::new();
    for case in cases.split_inclusive(|&b| b == b'%') {
        let case = case.strip_suffix(b"%").unwrap_or(case);
        let printed = runs.run("a stored case", case);
        rust += &told(case, &printed);
    }
    let says = read(CASES, "stdout");
    runs.tally
        .compare(&says[..], rust.as_bytes(), || CASES.into());
}

fn long(runs: &mut Runs) {
    for k in 0..LONG {
        let seed = SEEDS.get(k).copied();
        let seed = seed.unwrap_or_else(|| runs.random.word());
        let bytes = making::sound(seed, "65536", runs.random);
        runs.run("long", &bytes);
    }
}

/// Loads whose last score is known, since its state was chosen first.
fn notable_scores(runs: &mut Runs) {
    for top in making::notable_tops() {
        let score = (top as f64 / 16_777_216.0) as f32;
        let last = format!("{:08x}\n", score.to_bits());
        for _ in 0..ROUNDS {
            let any = runs.random.word() >> 24;
            let low = runs.random.of(&[0, u64::MAX >> 24, any]);
            let count = 1 + runs.random.below(4);
            let seed = making::before(top << 40 | low, count);
            let bytes = making::sound(seed, &count.to_string(), runs.random);
            let rust = runs.run("a notable score", &bytes);
            runs.tally
                .compare(&(rust.last() == Some(&last)), &true, || {
                    format!("the plain one's last line for {}", shown(&bytes))
                });
        }
    }
}

fn counts(runs: &mut Runs) {
    for count in COUNTS {
        let text = count.to_string();
        for width in text.len()..=5 {
            runs.counted(&format!("{count:0width$}"));
        }
    }
    for count in 0..=EVERY {
        runs.counted(&count.to_string());
    }
    for _ in 0..OTHERS {
        let count = runs.random.below(65_537);
        runs.counted(&count.to_string());
    }
}

/// Every byte in every place of both lines.
fn every_byte(runs: &mut Runs) {
    let places = making::sound(0, "00000", runs.random).len();
    for place in 0..places {
        for byte in 0..=u8::MAX {
            let count = format!("{:0>5}", making::count(runs.random));
            let seed = making::seed(runs.random);
            let mut bytes = making::sound(seed, &count, runs.random);
            bytes[place] = byte;
            bytes.extend(making::behind(runs.random));
            runs.run("a byte in another's place", &bytes);
        }
    }
}

/// Inputs cut off at every byte, and with bytes changed anywhere.
fn cut_and_changed(runs: &mut Runs) {
    let sound = |runs: &mut Runs| {
        let (seed, count) = (making::seed(runs.random), making::count(runs.random));
        making::sound(seed, &count, runs.random)
    };
    for _ in 0..ROUNDS {
        let bytes = sound(runs);
        for end in 0..=bytes.len() {
            runs.run("cut off", &bytes[..end]);
        }
    }
    for _ in 0..CHANGED {
        let mut bytes = sound(runs);
        bytes.extend(making::behind(runs.random).iter().take(SHOWN));
        change(&mut bytes, BYTES, runs.random);
        runs.run("changed", &bytes);
    }
}

pub fn compare(tally: &mut Tally, random: &mut Random) {
    let own = std::env::current_exe().expect("this program's place");
    let mut runs = Runs {
        tally,
        random,
        input: own.with_file_name("training"),
        kinds: Kinds::default(),
    };
    stored(&mut runs);
    long(&mut runs);
    notable_scores(&mut runs);
    counts(&mut runs);
    for _ in 0..ROUNDS {
        for faulty in making::every_fault(runs.random) {
            runs.faulty(&faulty);
        }
    }
    every_byte(&mut runs);
    cut_and_changed(&mut runs);
    runs.kinds.report(runs.tally, SCORES, LEAST);
}
