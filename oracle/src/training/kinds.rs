//! What kinds an input of the training load is of, read off its bytes, and how often each came up.

use std::collections::BTreeMap;

use super::plain;
use crate::tally::Tally;

const SEED_LINE: &str = "seed line";
const SEED_PLACE: &str = "seed line, spoilt at byte";
const LETTERS: &str = "the seed's letters";
const SECOND: &str = "the line below a faulty seed line";
const COUNT_LINE: &str = "count line";
const COUNT_PLACE: &str = "count line, spoilt at byte";
const COUNT: &str = "sound count";
const UNREAD: &str = "bytes left unread";
const SOURCE: &str = "read from";

/// How every line may end. An open one has no line end.
const ENDS: [&str; 11] = [
    "sound",
    "sound and open",
    "missing",
    "empty",
    "a digit too many",
    "CR",
    "space",
    "sign",
    "NUL",
    "another byte",
    "a byte over 127",
];

/// How the seed's or the count's alone may end.
const SHORT: [&str; 2] = ["too short", "too short and open"];
const LARGE: [&str; 2] = ["too large", "too large and open"];

/// Where the line that starts here ends or is spoilt: behind so many digits.
fn digits(rest: &[u8], most: usize, digit: fn(&u8) -> bool) -> usize {
    rest.iter().take(most).take_while(|b| digit(b)).count()
}

/// How a line ends whose digits are that many. At least so many make it sound.
fn end(rest: &[u8], digits: usize, least: usize, digit: fn(&u8) -> bool) -> &'static str {
    match rest.get(digits) {
        None if digits == 0 => "missing",
        None if digits < least => SHORT[1],
        None => "sound and open",
        Some(b'\n') if digits == 0 => "empty",
        Some(b'\n') if digits < least => SHORT[0],
        Some(b'\n') => "sound",
        Some(b'\r') => "CR",
        Some(b' ') => "space",
        Some(b'+' | b'-') => "sign",
        Some(0) => "NUL",
        Some(128..) => "a byte over 127",
        Some(b) if digit(b) => "a digit too many",
        Some(_) => "another byte",
    }
}

fn is_sound(end: &str) -> bool {
    matches!(end, "sound" | "sound and open")
}

fn letters(seed: &[u8]) -> &'static str {
    let any = |which: fn(&u8) -> bool| seed.iter().any(which);
    match (any(u8::is_ascii_lowercase), any(u8::is_ascii_uppercase)) {
        (false, false) => "none",
        (true, false) => "lower case",
        (false, true) => "upper case",
        (true, true) => "both",
    }
}

/// All names, by groups.
fn groups() -> Vec<(&'static str, Vec<String>)> {
    let named = |names: &[&str]| names.iter().map(|name| name.to_string()).collect();
    let numbered = |most: usize| (1..=most).map(|n| n.to_string()).collect();
    let lines = ["sound", "faulty", "missing"];
    let counts = [
        "1 digit",
        "2 digits",
        "3 digits",
        "4 digits",
        "5 digits",
        "leading zeros",
        "0",
        "65,536",
    ];
    let unread = [
        "behind a sound input",
        "behind a faulty seed line",
        "behind a faulty count line",
        "none",
    ];
    vec![
        (SEED_LINE, named(&[&ENDS[..], &SHORT[..]].concat())),
        (SEED_PLACE, numbered(17)),
        (
            LETTERS,
            named(&["none", "lower case", "upper case", "both"]),
        ),
        (SECOND, named(&lines)),
        (COUNT_LINE, named(&[&ENDS[..], &LARGE[..]].concat())),
        (COUNT_PLACE, numbered(6)),
        (COUNT, named(&counts)),
        (UNREAD, named(&unread)),
        (SOURCE, named(&["a file", "a socket"])),
    ]
}

#[derive(Default)]
pub struct Kinds {
    inputs: BTreeMap<(&'static str, String), u64>,
    /// Of zero, of 2^-24 up to the next power, and so on up to 1.
    scores: [u64; 25],
}

impl Kinds {
    fn add(&mut self, group: &'static str, name: impl ToString) {
        *self.inputs.entry((group, name.to_string())).or_default() += 1;
    }

    /// Counts an input, which came from a file or through a socket.
    pub fn input(&mut self, input: &[u8], from_file: bool) {
        self.add(SOURCE, if from_file { "a file" } else { "a socket" });
        let left = plain::needed(input) < input.len();
        let unread = match plain::asked(input).expect("bytes read") {
            _ if !left => "none",
            Ok(_) => "behind a sound input",
            Err(1) => "behind a faulty seed line",
            Err(_) => "behind a faulty count line",
        };
        self.add(UNREAD, unread);
        self.seed_line(input);
    }

    fn seed_line(&mut self, input: &[u8]) {
        let digit = u8::is_ascii_hexdigit;
        let digits = digits(input, 16, digit);
        let end = end(input, digits, 16, digit);
        self.add(SEED_LINE, end);
        if is_sound(end) {
            self.add(LETTERS, letters(&input[..16]));
            self.count_line(input.get(17..).unwrap_or_default());
            return;
        }
        self.place(SEED_PLACE, digits, input);
        let second = match input.split(|&b| b == b'\n').nth(1) {
            None | Some([]) => "missing",
            Some(line) if plain::count(line).is_some() => "sound",
            Some(_) => "faulty",
        };
        self.add(SECOND, second);
    }

    fn count_line(&mut self, rest: &[u8]) {
        let digit = u8::is_ascii_digit;
        let digits = digits(rest, 5, digit);
        let end = end(rest, digits, 1, digit);
        match plain::count(&rest[..digits]) {
            Some(count) if is_sound(end) => {
                self.add(COUNT_LINE, end);
                self.count(&rest[..digits], count);
            }
            None if is_sound(end) => self.add(COUNT_LINE, LARGE[(end != "sound") as usize]),
            _ => {
                self.add(COUNT_LINE, end);
                self.place(COUNT_PLACE, digits, rest);
            }
        }
    }

    /// Where a line is spoilt, if it is not the input's end that does it.
    fn place(&mut self, group: &'static str, digits: usize, rest: &[u8]) {
        if digits < rest.len() {
            self.add(group, digits + 1);
        }
    }

    fn count(&mut self, line: &[u8], count: u32) {
        match line.len() {
            1 => self.add(COUNT, "1 digit"),
            n => self.add(COUNT, format!("{n} digits")),
        }
        if line.len() > 1 && line[0] == b'0' {
            self.add(COUNT, "leading zeros");
        }
        match count {
            0 => self.add(COUNT, "0"),
            65_536 => self.add(COUNT, "65,536"),
            _ => {}
        }
    }

    /// Counts a score by its bits.
    pub fn score(&mut self, bits: u32) {
        self.scores[(bits >> 23).saturating_sub(102) as usize] += 1;
    }

    /// Prints the counts. Fewer scores than `scores`, or fewer than `least` of a kind, count as a case
    /// that differs.
    pub fn report(&self, tally: &mut Tally, scores: u64, least: u64) {
        for (group, names) in groups() {
            let count = |name: String| {
                let n = self.inputs.get(&(group, name.clone()));
                (name, n.copied().unwrap_or(0))
            };
            let counts: Vec<(String, u64)> = names.into_iter().map(count).collect();
            tally.owed(group, &counts, least);
        }
        let from = |k: usize| match k {
            0 => "0".to_string(),
            _ => format!("2^-{}", 25 - k),
        };
        let counts = self.scores.iter().enumerate().map(|(k, n)| (from(k), *n));
        tally.owed("scores from", &counts.collect::<Vec<_>>(), least);
        let all = [("all".to_string(), self.scores.iter().sum())];
        tally.owed("scores", &all, scores);
    }
}
