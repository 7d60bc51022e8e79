//! Random exports: sound ones and ones with a faulty row.

use crate::random::Random;

/// Rows that are faulty wherever they stand and whatever line end follows, with their errors. A `#`
/// stands for a drawer of the export.
const FAULTS: &[(&[u8], u8)] = &[
    (b"", 9),
    (b"#", 9),
    (b"#,1", 9),
    (b"#,1,1,", 9),
    (b"#,1,1,1", 9),
    (b",#,1,1", 9),
    (b",,,", 9),
    (b"#;1;1", 9),
    (b"#,1,1\"", 9),
    (b"#,1\",1", 9),
    (b"#,1, \"1\"", 9),
    (b"#,\r\"1\",1", 9),
    (b"#,1,\"1\"x", 9),
    (b"#,1,\"1\" ", 9),
    (b"\"#\"1,1,1", 9),
    (b"#,1,\"1\"\r\r", 9),
    (b"#,1,\"1\"\r1", 9),
    (b"#,1,\"1", 9),
    (b"\"#,1,1", 9),
    (b"#,1,\"", 9),
    (b"x,1,\"1", 9),
    (b"0,0,x,1", 9),
    (b"x,1,1\"", 9),
    (b"#,16777217", 9),
    (b"\"#,1,1\"", 9),
    (b"#,1,\"1\"\"\"", 10),
    (b"#,\"\"\"1\",1", 10),
    (b"#,1,\"1\n\"", 10),
    (b"#,1,\"\r\n1\"", 10),
    (b"\"#\n1,1\",1,1", 10),
    (b"#,1,1\r\r", 10),
    (b"#,1\r,1", 10),
    (b"#,1,1\r1", 10),
    (b",,", 10),
    (b",1,1", 10),
    (b"#,,1", 10),
    (b"#,1,", 10),
    (b"#,1,\"\"", 10),
    (b"0,1,1", 10),
    (b"000,1,1", 10),
    (b"65536,1,1", 10),
    (b"99999999999999999999,1,1", 10),
    (b"18446744073709551617,1,1", 10),
    (b"4294967297,1,1", 10),
    (b"-1,1,1", 10),
    (b"+#,1,1", 10),
    (b" #,1,1", 10),
    (b"#.0,1,1", 10),
    (b"0x1,1,1", 10),
    (b"drawer,seen,score", 10),
    (b"#,0,1", 10),
    (b"#,16777217,1", 10),
    (b"#,18446744073709551617,1", 10),
    (b"#,1e3,1", 10),
    (b"#,+1,1", 10),
    (b"#,1,.5", 10),
    (b"#,1,5.", 10),
    (b"#,1,.", 10),
    (b"#,1,0000", 10),
    (b"#,1,0000.1", 10),
    (b"#,1,1000", 10),
    (b"#,1,1.0000000", 10),
    (b"#,1,1.1.1", 10),
    (b"#,1,1..1", 10),
    (b"#,1,+1", 10),
    (b"#,1,-1", 10),
    (b"#,1, 1", 10),
    (b"#,1,1 ", 10),
    (b"#,1,1e2", 10),
    (b"#,1,nan", 10),
    (b"#,1,inf", 10),
    (b"#,1,3f800000", 10),
    (b"#,1,1\0", 10),
    (b"#,1,\xd9\xa1", 10),
    (b"#,1,\xff", 10),
];

/// Rows that are faulty where the input ends behind them.
const LAST: &[(&[u8], u8)] = &[
    (b"\r", 9),
    (b"#,1,\"1\"\r", 9),
    (b"#,1,\"1", 9),
    (b"#,1,\"1\n", 9),
    (b"#,1,1\r", 10),
    (b"#,1,\r", 10),
    (b"#,1,", 10),
];

/// Headers that are none.
const HEADERS: &[&[u8]] = &[
    b"",
    b"1,1,1",
    b"Drawer,seen,score",
    b"DRAWER,SEEN,SCORE",
    b"\xef\xbb\xbfdrawer,seen,score",
    b"drawer, seen,score",
    b"drawer,seen,score ",
    b"drawer,seen",
    b"drawer,seen,score,",
    b"drawer,score,seen",
    b"drawer;seen;score",
    b"drawer,seen,score\r\r",
    b"drawer,seen,scores",
    b"drawer,seen,scor",
    b"\"drawer,seen,score\"",
    b"\"drawer\",\"seen\",\"score",
    b"drawer,seen,score\"",
    b"drawer,seen,\"score\"x",
    b"drawer,seen,\"sco\"\"re\"",
    b"drawer,seen,\"score\n\"",
];

/// An export as it grows.
pub struct Export {
    pub bytes: Vec<u8>,
    /// Its rows so far, the header's included.
    rows: u64,
    /// The drawers that its rows are of.
    drawers: Vec<u64>,
    /// One row in so many ends with CR and LF, one field in so many is quoted; none for 0.
    returns: u64,
    quotes: u64,
    /// One score in so many is a zero that is put there.
    skips: u64,
}

fn at_times(often: u64, random: &mut Random) -> bool {
    often > 0 && random.once_in(often)
}

impl Export {
    fn empty(random: &mut Random) -> Self {
        let drawers = 1 + random.below(4);
        Export {
            bytes: Vec::new(),
            rows: 0,
            drawers: (0..drawers).map(|_| drawer(random)).collect(),
            returns: random.of(&[0, 0, 1, 2, 20]),
            quotes: random.of(&[0, 0, 1, 3, 50]),
            skips: random.of(&[0, 1, 1, 2, 5, 20, 20]),
        }
    }

    /// The header and so many sound rows.
    pub fn sound(rows: u64, random: &mut Random) -> Self {
        let mut export = Export::empty(random);
        export.put(["drawer", "seen", "score"].map(String::from), random);
        for _ in 0..rows {
            let drawer = random.of(&export.drawers);
            let score = match at_times(export.skips, random) {
                true => zero(1 + random.below(3) as usize, random.below(7) as usize),
                false => score(random),
            };
            let row = [zeros(drawer, random), seen(random), score];
            export.put(row, random);
        }
        export
    }

    fn put(&mut self, fields: [String; 3], random: &mut Random) {
        let fields = fields.map(|field| match at_times(self.quotes, random) {
            true => format!("\"{field}\""),
            false => field,
        });
        self.put_row(fields.join(",").as_bytes(), random);
    }

    /// A row with a drawer for each `#`, and a line end.
    fn put_row(&mut self, row: &[u8], random: &mut Random) {
        self.put_open(row, random);
        if at_times(self.returns, random) {
            self.bytes.push(b'\r');
        }
        self.bytes.push(b'\n');
    }

    fn put_open(&mut self, row: &[u8], random: &mut Random) {
        let drawer = random.of(&self.drawers).to_string();
        let parts: Vec<&[u8]> = row.split(|&b| b == b'#').collect();
        self.bytes.extend(parts.join(drawer.as_bytes()));
        self.rows += 1;
    }

    /// Takes the last line end away.
    pub fn open(mut self) -> Self {
        self.bytes.pop();
        if self.bytes.ends_with(b"\r") {
            self.bytes.pop();
        }
        self
    }

    /// The export and the line that it is to end with, its last row being faulty.
    fn faulty(self, error: u8) -> (Vec<u8>, String) {
        let says = format!("bad line {} {error}\n", self.rows);
        (self.bytes, says)
    }
}

/// A whole number with leading zeros now and then.
fn zeros(number: u64, random: &mut Random) -> String {
    match random.below(8) {
        0 => format!("{number:0width$}", width = random.below(30) as usize),
        _ => number.to_string(),
    }
}

fn drawer(random: &mut Random) -> u64 {
    match random.below(4) {
        0 => random.of(&[1, 9, 10, 65_534, 65_535]),
        _ => 1 + random.below(65_535),
    }
}

fn seen(random: &mut Random) -> String {
    let number = match random.below(4) {
        0 => random.of(&[1, 2, 16_777_215, 16_777_216]),
        _ => 1 + random.below(16_777_216),
    };
    zeros(number, random)
}

/// A score from 2^-6 on, next to the middle between two f32: by 1/31,250 of their distance, nearer
/// than which none comes, or by 3/31,250, where the even one of the two is the wrong one. On a middle
/// lies none, since below 1,000 a middle has 15 decimal places or more.
fn near_middle(random: &mut Random) -> String {
    // Millionths: 2^(k - 6) is 5^6 * 2^k of them, and a middle an odd multiple of 5^6 / 2^(24 - k).
    let k = random.below(16);
    let low = 15_625 << k;
    let start = low + random.below(low.min(480_000_000) - 15_624);
    let factor = (1 << (24 - k)) % 15_625;
    let off = |n: u64| n % 15_625 * factor % 15_625;
    let n = (start..).find(|&n| matches!(off(n), 1 | 3 | 15_622 | 15_624));
    let n = n.expect("four in 15,625");
    format!("{}.{:06}", n / 1_000_000, n % 1_000_000)
}

/// One to three digits, then perhaps a point and one to six more.
fn any_digits(random: &mut Random) -> String {
    let before = 1 + random.below(3) as usize;
    let behind = random.below(7) as usize;
    let whole = random.below(10u64.pow(before as u32));
    let part = random.below(10u64.pow(behind as u32));
    match behind {
        0 => format!("{whole:0before$}"),
        _ => format!("{whole:0before$}.{part:0behind$}"),
    }
}

/// A zero of so many digits, and so many more behind the point.
pub fn zero(before: usize, behind: usize) -> String {
    let point = if behind > 0 { "." } else { "" };
    format!("{}{point}{}", "0".repeat(before), "0".repeat(behind))
}

/// Most scores are calm; some are far over the others, or hard to round.
fn score(random: &mut Random) -> String {
    let ends = ["0.000001", "999.999999", "999", "1.000000", "007.5"];
    match random.below(19) {
        0 => random.of(&ends).to_string(),
        1..=4 => near_middle(random),
        5 => any_digits(random),
        6 => format!("{:.1}", 20.0 + 900.0 * random.fraction()),
        _ => {
            let places = random.below(7) as usize;
            format!("{:.places$}", 1.0 + 4.0 * random.fraction())
        }
    }
}

/// An export for every fault, and the line that it is to end with. Behind a faulty row others follow,
/// if the end of the input is no part of the fault.
pub fn every_fault(random: &mut Random) -> Vec<(Vec<u8>, String)> {
    let mut made = Vec::new();
    for header in HEADERS {
        let mut export = Export::empty(random);
        export.put_row(header, random);
        made.push(export.faulty(9));
    }
    for &(row, error) in FAULTS {
        let mut export = Export::sound(random.below(40), random);
        export.put_row(row, random);
        made.push(export.faulty(error));
    }
    for (bytes, _) in &mut made {
        bytes.extend(Export::sound(random.below(20), random).bytes);
    }
    for &(row, error) in LAST {
        let mut export = Export::sound(random.below(40), random);
        export.put_open(row, random);
        made.push(export.faulty(error));
    }
    made
}
