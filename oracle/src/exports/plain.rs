//! Document 02's CSV run as a Rust programmer would write it, over the Rust's own thresholder.

use std::borrow::Cow;
use std::io::{self, BufRead, BufWriter, Write};

use crate::sheet::Sheet;

/// The word that makes this program the plain one.
pub const PLAIN: &str = "export-watch";

const HEADER: [&[u8]; 3] = [b"drawer", b"seen", b"score"];

/// A row without three fields, with a broken quote, or a header that is none.
const ROW: u8 = 9;
/// A field that is not the number it has to be.
const FIELD: u8 = 10;

/// Reads the next row without its line end; false at the end of the input. A line end inside quotes
/// does not end the row: the quotes up to there are odd in number, unless one of them is broken.
fn next_row(input: &mut impl BufRead, row: &mut Vec<u8>) -> io::Result<bool> {
    row.clear();
    let mut quotes = 0;
    loop {
        let at = row.len();
        if input.read_until(b'\n', row)? == 0 {
            return Ok(at > 0);
        }
        quotes += row[at..].iter().filter(|&&b| b == b'"').count();
        if quotes % 2 == 0 {
            break;
        }
    }
    if row.ends_with(b"\n") {
        row.pop();
        if row.ends_with(b"\r") {
            row.pop();
        }
    }
    Ok(true)
}

/// A quoted field, from behind its first quote on, and what follows the last.
fn quoted(mut text: &[u8]) -> Option<(Cow<'_, [u8]>, &[u8])> {
    let mut field = Cow::Borrowed(&text[..0]);
    loop {
        let end = text.iter().position(|&b| b == b'"')?;
        let behind = &text[end + 1..];
        if field.is_empty() {
            field = Cow::Borrowed(&text[..end]);
        } else {
            field.to_mut().extend(&text[..end]);
        }
        match behind.strip_prefix(b"\"") {
            None => return Some((field, behind)),
            Some(rest) => {
                field.to_mut().push(b'"');
                text = rest;
            }
        }
    }
}

/// The next field and, if a comma follows it, the text behind that.
fn field(text: &[u8]) -> Option<(Cow<'_, [u8]>, Option<&[u8]>)> {
    let (field, rest) = match text.strip_prefix(b"\"") {
        Some(text) => quoted(text)?,
        None => {
            let end = text.iter().position(|b| matches!(b, b',' | b'"'));
            let (field, rest) = text.split_at(end.unwrap_or(text.len()));
            (Cow::Borrowed(field), rest)
        }
    };
    match rest.split_first() {
        None => Some((field, None)),
        Some((b',', behind)) => Some((field, Some(behind))),
        Some(_) => None,
    }
}

/// A row's fields, if they are three and their quotes sound.
fn fields(row: &[u8]) -> Option<[Cow<'_, [u8]>; 3]> {
    let (a, rest) = field(row)?;
    let (b, rest) = field(rest?)?;
    let (c, rest) = field(rest?)?;
    rest.is_none().then_some([a, b, c])
}

/// A text of so many digits, at least one.
fn digits(text: &str, most: usize) -> bool {
    (1..=most).contains(&text.len()) && text.bytes().all(|b| b.is_ascii_digit())
}

/// A whole number from 1 to `most`.
fn whole(field: &[u8], most: u32) -> Option<u32> {
    let text = std::str::from_utf8(field).ok()?;
    let number = text.parse().ok()?;
    (digits(text, text.len()) && (1..=most).contains(&number)).then_some(number)
}

/// A score of one to three digits, then perhaps a point and one to six more.
fn score(field: &[u8]) -> Option<f32> {
    let text = std::str::from_utf8(field).ok()?;
    let sound = match text.split_once('.') {
        None => digits(text, 3),
        Some((a, b)) => digits(a, 3) && digits(b, 6),
    };
    sound.then(|| text.parse().ok())?
}

/// A sound row's drawer and score, or the error of the row.
fn reading(row: &[u8]) -> Result<(u32, f32), u8> {
    let [a, b, c] = fields(row).ok_or(ROW)?;
    let drawer = whole(&a, 65_535).ok_or(FIELD)?;
    whole(&b, 16_777_216).ok_or(FIELD)?;
    Ok((drawer, score(&c).ok_or(FIELD)?))
}

/// Reads an export and prints what the CSV run is to print.
pub fn watch(mut input: impl BufRead, out: impl Write) -> io::Result<()> {
    let mut sheet = Sheet::begin(out)?;
    let mut row = Vec::new();
    let found = next_row(&mut input, &mut row)?;
    if !found || !fields(&row).is_some_and(|names| names == HEADER) {
        return sheet.bad_line(format_args!("1 {ROW}"));
    }
    let mut watched = None;
    let mut number: u64 = 1;
    while next_row(&mut input, &mut row)? {
        number += 1;
        let (drawer, score) = match reading(&row) {
            Ok(reading) => reading,
            Err(error) => return sheet.bad_line(format_args!("{number} {error}")),
        };
        if *watched.get_or_insert(drawer) != drawer {
            continue;
        }
        if sheet.is_full() {
            return sheet.bad_line(number);
        }
        sheet.score(number, score)?;
    }
    sheet.counts()
}

pub fn plain() -> io::Result<()> {
    watch(io::stdin().lock(), BufWriter::new(io::stdout().lock()))
}
