//! Inputs for the training load: sound ones, and ones that are spoilt at a known byte.

use super::plain::{FACTOR, TERM};
use crate::digits::cased;
use crate::random::Random;

/// Seeds at both ends, and with halves of zeros or of ones.
pub const SEEDS: [u64; 12] = [
    0,
    1,
    1 << 63,
    u64::MAX,
    u64::MAX - 1,
    0x0000_0000_ffff_ffff,
    0xffff_ffff_0000_0000,
    0x0000_0001_0000_0000,
    0x0000_0000_8000_0000,
    0x8000_0000_8000_0000,
    0x0123_4567_89ab_cdef,
    0xabcd_efab_cdef_abcd,
];

/// Inputs up to the byte that spoils a line, and the line's number. A `#` stands for a sound seed.
const SPOILT: &[(&[u8], u8)] = &[
    (b"\n", 1),
    (b"\r", 1),
    (b" ", 1),
    (b"\t", 1),
    (b"+", 1),
    (b"-", 1),
    (b"\0", 1),
    (b"\xef", 1),
    (b"\"", 1),
    (b"0x", 1),
    (b"0\n", 1),
    (b"0123 ", 1),
    (b"01234567\n", 1),
    (b"01234567_", 1),
    (b"01234567\r", 1),
    (b"0123456789abcde\n", 1),
    (b"0123456789abcde\r", 1),
    (b"0123456789abcde ", 1),
    (b"0123456789abcde\0", 1),
    (b"0123456789abcde/", 1),
    (b"0123456789abcde:", 1),
    (b"0123456789abcde@", 1),
    (b"0123456789abcde`", 1),
    (b"0123456789abcdeg", 1),
    (b"0123456789ABCDEG", 1),
    (b"0123456789abcde\xc1", 1),
    (b"#0", 1),
    (b"#f", 1),
    (b"#F", 1),
    (b"#g", 1),
    (b"#\r", 1),
    (b"# ", 1),
    (b"#\t", 1),
    (b"#+", 1),
    (b"#\0", 1),
    (b"#,", 1),
    (b"#\xff", 1),
    (b"#\n\n", 2),
    (b"#\n\r", 2),
    (b"#\n ", 2),
    (b"#\n\t", 2),
    (b"#\n+", 2),
    (b"#\n-", 2),
    (b"#\n\0", 2),
    (b"#\na", 2),
    (b"#\n.", 2),
    (b"#\n\xd9", 2),
    (b"#\n0x", 2),
    (b"#\n1\r", 2),
    (b"#\n1_", 2),
    (b"#\n10\r", 2),
    (b"#\n10 ", 2),
    (b"#\n10-", 2),
    (b"#\n10\0", 2),
    (b"#\n10.", 2),
    (b"#\n10e", 2),
    (b"#\n10/", 2),
    (b"#\n10:", 2),
    (b"#\n10\xb1", 2),
    (b"#\n65536\r", 2),
    (b"#\n65536 ", 2),
    (b"#\n65536x", 2),
    (b"#\n65536\0", 2),
    (b"#\n65537\n", 2),
    (b"#\n65538\n", 2),
    (b"#\n65540\n", 2),
    (b"#\n65600\n", 2),
    (b"#\n66000\n", 2),
    (b"#\n70000\n", 2),
    (b"#\n99999\n", 2),
    (b"#\n000000", 2),
    (b"#\n000001", 2),
    (b"#\n065536", 2),
    (b"#\n100000", 2),
    (b"#\n655360", 2),
    (b"#\n999999", 2),
];

/// Inputs that are faulty because they end here.
const LAST: &[(&[u8], u8)] = &[
    (b"", 1),
    (b"0", 1),
    (b"01234567", 1),
    (b"0123456789abcde", 1),
    (b"#", 2),
    (b"#\n", 2),
    (b"#\n65537", 2),
    (b"#\n70000", 2),
    (b"#\n99999", 2),
];

/// What may stand behind the last byte that is read: more of the line, the next line, or another load.
const BEHIND: &[&[u8]] = &[
    b"",
    b"\n",
    b"\n\n",
    b"\r\n",
    b"0",
    b"10\n",
    b"\n10",
    b"\n10\n",
    b"\r\n10\r\n",
    b"\nx\n",
    b"\n65537\n",
    b"\0",
    b"\xff",
    b"0123456789abcdef\n3\n",
    b"3da02bd8\n",
];

pub fn behind(random: &mut Random) -> Vec<u8> {
    let length = match random.below(20) {
        0 => 70_000,
        1 | 2 => random.below(40),
        _ => return random.of(BEHIND).to_vec(),
    };
    (0..length).map(|_| random.word() as u8).collect()
}

pub fn seed(random: &mut Random) -> u64 {
    match random.below(4) {
        0 => random.of(&SEEDS),
        _ => random.word(),
    }
}

/// A count of few lines with leading zeros, none or some.
pub fn count(random: &mut Random) -> String {
    let width = 1 + random.below(5) as usize;
    format!("{:0width$}", random.of(&[0, 1, 2, 3, 10, 57]))
}

/// The seed's line, in lower case, in upper case or in both.
fn seed_line(seed: u64, random: &mut Random) -> String {
    cased(format!("{seed:016x}"), random)
}

/// Both lines, the second one without its line end.
pub fn open(seed: u64, count: &str, random: &mut Random) -> Vec<u8> {
    format!("{}\n{count}", seed_line(seed, random)).into()
}

/// Both lines.
pub fn sound(seed: u64, count: &str, random: &mut Random) -> Vec<u8> {
    let mut bytes = open(seed, count, random);
    bytes.push(b'\n');
    bytes
}

/// An input with its first faulty or missing line, and how much of it is to be read.
pub struct Faulty {
    pub bytes: Vec<u8>,
    pub line: u8,
    pub read: usize,
}

impl Faulty {
    fn new(&(text, line): &(&[u8], u8), random: &mut Random) -> Self {
        let seed = seed_line(seed(random), random);
        let parts: Vec<&[u8]> = text.split(|&b| b == b'#').collect();
        let bytes = parts.join(seed.as_bytes());
        let read = bytes.len();
        Faulty { bytes, line, read }
    }
}

/// An input for every fault.
pub fn every_fault(random: &mut Random) -> Vec<Faulty> {
    let mut made = Vec::new();
    for fault in SPOILT {
        let mut faulty = Faulty::new(fault, random);
        faulty.bytes.extend(behind(random));
        made.push(faulty);
    }
    made.extend(LAST.iter().map(|fault| Faulty::new(fault, random)));
    made
}

/// The state from which so many steps lead to this one.
pub fn before(state: u64, steps: u64) -> u64 {
    // An odd number is its own inverse modulo 8, and each turn doubles how many bits are right.
    let better = |x: u64| x.wrapping_mul(2u64.wrapping_sub(FACTOR.wrapping_mul(x)));
    let inverse = (0..5).fold(FACTOR, |x, _| better(x));
    (0..steps).fold(state, |x, _| x.wrapping_sub(TERM).wrapping_mul(inverse))
}

/// The top 24 bits of states whose scores are zero, a power of two or next to one.
pub fn notable_tops() -> Vec<u64> {
    let powers = (0..24).map(|k| 1 << k);
    let mut tops: Vec<u64> = powers.flat_map(|p: u64| [p - 1, p, p + 1]).collect();
    tops.push((1 << 24) - 1);
    tops
}
