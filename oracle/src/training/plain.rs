//! Document 02's training load as a Rust programmer would write it.

use std::io::{self, BufRead, BufWriter, Write};

/// The word that makes this program the plain one, and the one for the plain one with its digits
/// written by hand.
pub const PLAIN: &str = "training-load";
pub const BY_HAND: &str = "training-load-by-hand";

/// A state's factor, and what is added to the product.
pub const FACTOR: u64 = 6_364_136_223_846_793_005;
pub const TERM: u64 = 1_442_695_040_888_963_407;

const SEED_DIGITS: usize = 16;
const COUNT_DIGITS: usize = 5;
const LINES: u32 = 65_536;

/// The seed that a line without its end names.
fn seed(line: &[u8]) -> Option<u64> {
    let text = std::str::from_utf8(line).ok()?;
    let sound = text.len() == SEED_DIGITS && text.bytes().all(|b| b.is_ascii_hexdigit());
    sound.then(|| u64::from_str_radix(text, 16).ok())?
}

/// The count that a line without its end names.
pub fn count(line: &[u8]) -> Option<u32> {
    let text = std::str::from_utf8(line).ok()?;
    let number = text.parse().ok()?;
    let digits = text.len() <= COUNT_DIGITS && text.bytes().all(|b| b.is_ascii_digit());
    (digits && number <= LINES).then_some(number)
}

/// Seed and count, or the number of the first line that is faulty or missing.
pub fn asked(input: impl BufRead) -> io::Result<Result<(u64, u32), u8>> {
    let mut lines = input.split(b'\n');
    let first = lines.next().transpose()?;
    let Some(seed) = first.and_then(|line| seed(&line)) else {
        return Ok(Err(1));
    };
    let second = lines.next().transpose()?;
    let count = second.and_then(|line| count(&line));
    Ok(count.map(|count| (seed, count)).ok_or(2))
}

fn next(state: u64) -> u64 {
    state.wrapping_mul(FACTOR).wrapping_add(TERM)
}

/// The bits of a state's score: its top 24 bits over 2^24.
fn score(state: u64) -> u32 {
    ((state >> 40) as f32 / 16_777_216.0).to_bits()
}

/// Reads seed and count and prints what the training load is to print.
pub fn load(input: impl BufRead, out: &mut impl Write) -> io::Result<()> {
    let (mut state, count) = match asked(input)? {
        Ok(asked) => asked,
        Err(number) => return writeln!(out, "bad line {number}"),
    };
    for _ in 0..count {
        state = next(state);
        writeln!(out, "{:08x}", score(state))?;
    }
    Ok(())
}

pub fn plain() -> io::Result<()> {
    load(io::stdin().lock(), &mut BufWriter::new(io::stdout().lock()))
}

/// The same for sound lines, without formatting and with a single write.
pub fn by_hand() -> io::Result<()> {
    let (mut state, count) = asked(io::stdin().lock())?.expect("sound lines");
    let mut out = Vec::with_capacity(9 * count as usize);
    for _ in 0..count {
        state = next(state);
        let bits = score(state);
        let mut line = [b'\n'; 9];
        for (k, digit) in line[..8].iter_mut().enumerate() {
            *digit = b"0123456789abcdef"[(bits >> (28 - 4 * k) & 15) as usize];
        }
        out.extend_from_slice(&line);
    }
    io::stdout().write_all(&out)
}

/// How much of a line is read: digits, as many as it may have, and the byte behind them, which ends
/// the line or spoils it.
fn line_needed(rest: &[u8], most: usize, digit: fn(&u8) -> bool) -> usize {
    let digits = rest.iter().take(most).take_while(|b| digit(b)).count();
    rest.len().min(digits + 1)
}

/// How much of an input is read.
pub fn needed(input: &[u8]) -> usize {
    let first = line_needed(input, SEED_DIGITS, u8::is_ascii_hexdigit);
    match asked(input) {
        Ok(Err(1)) => first,
        _ => first + line_needed(&input[first..], COUNT_DIGITS, u8::is_ascii_digit),
    }
}
