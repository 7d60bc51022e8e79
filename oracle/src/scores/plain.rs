//! Document 01's score watch as a Rust programmer would write it, over the Rust's own thresholder.

use std::io::{self, BufRead, BufWriter, Write};

use crate::sheet::Sheet;

/// The word that makes this program the plain one.
pub const PLAIN: &str = "score-watch";

const DIGITS: usize = 8;

/// The finite score that a line without its end has the bits of.
pub fn score(line: &[u8]) -> Option<f32> {
    let text = std::str::from_utf8(line).ok()?;
    let sound = text.len() == DIGITS && text.bytes().all(|b| b.is_ascii_hexdigit());
    let bits = sound.then(|| u32::from_str_radix(text, 16).ok())??;
    Some(f32::from_bits(bits)).filter(|score| score.is_finite())
}

/// Reads scores and prints what the score watch is to print.
pub fn watch(input: impl BufRead, out: impl Write) -> io::Result<()> {
    let mut sheet = Sheet::begin(out)?;
    for line in input.split(b'\n') {
        let number = sheet.lines() + 1;
        match score(&line?) {
            Some(score) if !sheet.is_full() => sheet.score(number, score)?,
            _ => return sheet.bad_line(number),
        }
    }
    sheet.counts()
}

pub fn plain() -> io::Result<()> {
    watch(io::stdin().lock(), BufWriter::new(io::stdout().lock()))
}
