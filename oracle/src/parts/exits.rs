//! The script of the program nine_exits, judged by the Rust: its readings as bytes are the program's
//! input, its lines the program's expected output. What document 01's table refuses is not handed to
//! the Rust.
//!
//! In the script a reading is 22 lines of 85 bytes: a title, then a name and eight words of eight
//! hexadecimal digits, dashes standing for 0; a float is its f32 bits. For the program it is the
//! title (40 bytes), the state (1310), the reading (23), the last descriptor (23), the lengths of the
//! buffers of D floats, of base floats and of the neighbours, and the floats of lines 10 to 21.

use std::fs;
use std::io::Result;

use rcflib::common::descriptor::{AnomalyInformation, Descriptor};
use rcflib::common::deviation::Deviation;
use rcflib::common::divector::DiVector;
use rcflib::rcf::Call;
use rcflib::trcf::basicthresholder::{BasicThresholder, Numbers};
use rcflib::trcf::predictorcorrector::{PredictorCorrector, State};
use rcflib::trcf::types::{CorrectionMode, ScoringStrategy};

use crate::bytes::Bytes;
use crate::chain::{last_bytes, reading_bytes, verdict_bytes, ACTUAL, EXPECTED, STATE, VERDICT};
use crate::random::Random;
use crate::readings::making::no_anomaly;
use crate::readings::{states, verdict, Reading, Verdict, METHODS};
use crate::tally::Tally;

const SCRIPT: &str = "oracle/exits.txt";
const READINGS: &str = "crates/nine_exits/stdin";
const LINES: &str = "crates/nine_exits/stdout";

/// A reading's bytes in the script, those of a line, and where a line's first word starts.
const READING: usize = 22 * LINE;
const LINE: usize = 85;
const FIRST: usize = 13;

/// How much of a title is printed, how long every buffer is, and a reading's bytes for the program.
const TITLE: usize = 40;
const ROOM: usize = 8;
const RECORD: usize = 1783;

const MOST: u32 = 16_777_215;

/// One reading of the script.
struct Text<'a>(&'a str);

impl Text<'_> {
    /// A word of a line, both counted from 0; dashes are 0.
    fn word(&self, line: usize, column: usize) -> u32 {
        let at = line * LINE + column * 9 + FIRST;
        u32::from_str_radix(&self.0[at..at + 8], 16).unwrap_or(0)
    }

    fn size(&self, line: usize, column: usize) -> usize {
        self.word(line, column) as usize
    }

    fn yes(&self, line: usize, column: usize) -> bool {
        self.word(line, column) == 1
    }

    fn real(&self, line: usize, column: usize) -> f32 {
        f32::from_bits(self.word(line, column))
    }

    fn row(&self, line: usize, n: usize) -> Vec<f32> {
        (0..n).map(|k| self.real(line, k)).collect()
    }

    fn wide_row(&self, line: usize, n: usize) -> Vec<f64> {
        self.row(line, n).iter().map(|&x| x as f64).collect()
    }

    fn strategy(&self, line: usize, column: usize) -> ScoringStrategy {
        match self.word(line, column) {
            1 => ScoringStrategy::DISTANCE,
            _ => ScoringStrategy::EXPECTED_INVERSE_HEIGHT,
        }
    }

    fn statistic(&self, line: usize) -> Deviation {
        Deviation {
            discount: self.real(1, 4) as f64,
            weight: self.real(line, 0) as f64,
            sum_squared: self.real(line, 1) as f64,
            sum: self.real(line, 2) as f64,
            count: self.word(line, 3) as i32,
        }
    }

    fn state(&self) -> State {
        let discount = self.real(1, 4) as f64;
        // With the Rust's own z of 3, as in states stored before A5.
        let fresh = BasicThresholder::new(discount).expect("a discount below 1");
        let auto_adjust = self.yes(1, 0);
        let existing = if auto_adjust { self.size(1, 2) } else { 0 };
        State {
            basic_thresholder: Numbers {
                count: self.word(1, 3) as i32,
                primary_deviation: self.statistic(2),
                secondary_deviation: self.statistic(3),
                threshold_deviation: self.statistic(4),
                ..fresh.numbers()
            },
            auto_adjust,
            run_length: self.size(1, 1),
            deviations_actual: vec![self.statistic(5); existing],
            deviations_expected: vec![self.statistic(6); existing],
        }
    }

    fn last_anomaly(&self, d: usize) -> AnomalyInformation {
        AnomalyInformation {
            expected_rcf_point: self.row(14, d),
            anomalous_rcf_point: self.row(15, d),
            relative_index: if self.word(8, 4) == 0 { 0 } else { -1 },
            values_seen: self.size(8, 5),
            attribution: self.yes(8, 6).then(|| self.vector(16, d)),
            score: self.real(8, 7),
            ..no_anomaly()
        }
    }

    fn vector(&self, line: usize, d: usize) -> DiVector {
        DiVector {
            high: self.wide_row(line, d),
            low: self.wide_row(line + 1, d),
        }
    }

    fn reading(&self) -> Reading {
        let d = self.size(9, 0);
        let base = self.size(9, 1);
        let last_anomaly = self.yes(8, 3).then(|| self.last_anomaly(d));
        Reading {
            shingle: self.size(7, 0),
            base: self.size(7, 1),
            strategy: self.strategy(7, 2),
            method: METHODS[self.size(7, 3)],
            time_augmented: self.yes(7, 4),
            values_seen: self.size(7, 5),
            point: self.row(10, d),
            scale: self.row(11, base),
            shift: self.row(12, base),
            deviations: self.row(13, base),
            score: self.real(7, 6),
            corrected_score: self.real(7, 7),
            attribution: self.vector(16, d),
            expected_attribution: self.vector(19, d),
            median: self.row(18, d),
            neighbours: self
                .row(21, self.size(9, 2))
                .chunks(d)
                .map(<[f32]>::to_vec)
                .collect(),
            last: Descriptor {
                scoring_strategy: self.strategy(8, 0),
                score: self.real(8, 1),
                threshold: self.real(8, 2),
                last_anomaly,
                ..Descriptor::default()
            },
        }
    }

    /// Document 01's table: the smallest number that applies, or 0.
    fn refusal(&self) -> u32 {
        let (shingle, base, seen) = (self.size(7, 0), self.size(7, 1), self.size(7, 5));
        let d = shingle * base;
        let floats = [(7, 6), (7, 7), (8, 1), (8, 2), (8, 7)].map(|(l, c)| self.real(l, c));
        let rows = (10..22).flat_map(|line| self.row(line, ROOM));
        let counts = (2..7)
            .map(|line| self.word(line, 3))
            .chain([self.word(1, 1)]);
        if !(1..=64).contains(&shingle) || !(1..=16).contains(&base) || base != self.size(1, 2) {
            2
        } else if self.size(9, 0) != d || self.size(9, 1) != base || self.size(9, 2) % d != 0 {
            3
        } else if !floats.into_iter().chain(rows).all(f32::is_finite) {
            4
        } else if seen == 0 || (self.yes(8, 3) && seen <= self.size(8, 5)) {
            5
        } else if counts.chain([self.word(1, 3)]).any(|n| n > MOST) {
            6
        } else {
            0
        }
    }

    /// The state before the reading. A list entry that the Rust does not have is like the others.
    fn state_bytes(&self) -> Vec<u8> {
        let mut out = vec![0; STATE];
        for (start, line) in [(ACTUAL, 5), (EXPECTED, 6)] {
            let entry = self.statistic(line).bytes();
            for at in (start..).step_by(entry.len()).take(16) {
                out[at..at + entry.len()].copy_from_slice(&entry);
            }
        }
        states::put(&self.state(), self.size(1, 2), &mut out);
        out
    }

    /// The reading as the program takes it.
    fn record(&self) -> Vec<u8> {
        let reading = self.reading();
        let mut out = self.0.as_bytes()[..TITLE].to_vec();
        out.extend(self.state_bytes());
        out.extend(reading_bytes(&reading));
        out.extend(last_bytes(&reading));
        out.extend((0..3).map(|k| self.word(9, k) as u8));
        let rows = (10..22).flat_map(|line| self.row(line, ROOM));
        out.extend(rows.flat_map(f32::to_le_bytes));
        out
    }
}

fn mix(sum: u64, bits: u64) -> u64 {
    sum.rotate_left(7).wrapping_add(bits)
}

fn bytes_sum(bytes: &[u8]) -> u64 {
    bytes.iter().fold(0, |sum, &b| mix(sum, b as u64))
}

/// A buffer of minus ones, the start of it overwritten.
fn buffer<T: Copy>(blank: T, start: &[T]) -> [T; ROOM] {
    let mut buffer = [blank; ROOM];
    buffer[..start.len()].copy_from_slice(start);
    buffer
}

/// Of each place the expected point's bits, then those of high and low.
fn buffers_sum(result: &Descriptor) -> u64 {
    let expected = buffer(-1.0, result.expected_rcf_point.as_deref().unwrap_or(&[]));
    let attribution = result.attribution.as_ref();
    let high = buffer(-1.0, attribution.map_or(&[], |v| &v.high));
    let low = buffer(-1.0, attribution.map_or(&[], |v| &v.low));
    (0..ROOM).fold(0, |sum, k| {
        let sum = mix(sum, expected[k].plain().to_bits() as u64);
        let sum = mix(sum, high[k].plain().to_bits());
        mix(sum, low[k].plain().to_bits())
    })
}

/// The exit by its place in `detect_and_modify`. Two give ANOMALY_IN_SHINGLE: the first asks for no
/// attribution, the second for two.
fn exit(verdict: Verdict, calls: &[Call]) -> usize {
    let late = matches!(calls.last(), Some(Call::Attribution(_)));
    match verdict {
        Verdict::Skipped => 0,
        Verdict::Quiet(_) => 1,
        Verdict::Corrected(_, CorrectionMode::ANOMALY_IN_SHINGLE) if !late => 2,
        Verdict::Corrected(_, CorrectionMode::NOISE) => 3,
        Verdict::Corrected(_, CorrectionMode::CONDITIONAL_FORECAST) => 4,
        Verdict::Corrected(_, CorrectionMode::ANOMALY_IN_SHINGLE) => 5,
        Verdict::Corrected(_, CorrectionMode::FORECAST) => 6,
        Verdict::Corrected(_, CorrectionMode::DATA_DRIFT) => 7,
        Verdict::Corrected(_, mode) => panic!("{mode:?} never comes up"),
        Verdict::Raised(..) => 8,
    }
}

/// What the script makes: the program's input, its output, and which exits and refusals come up.
#[derive(Default)]
struct Made {
    records: Vec<u8>,
    lines: String,
    exits: [bool; 9],
    refusals: [bool; 7],
}

impl Made {
    fn of_script() -> Result<Self> {
        let script = fs::read_to_string(SCRIPT)?;
        let mut made = Made::default();
        for at in (0..script.len()).step_by(READING) {
            let text = Text(&script[at..at + READING]);
            made.records.extend(text.record());
            made.judge(&text);
        }
        Ok(made)
    }

    /// The line of one reading; an accepted one marks its exit, a refused one its number.
    fn judge(&mut self, text: &Text) {
        let refusal = text.refusal();
        let mut state = text.state_bytes();
        let mut said = vec![0; VERDICT];
        let mut result = Descriptor::default();
        self.refusals[refusal as usize] = true;
        if refusal == 0 {
            let mut chain = PredictorCorrector::of_state(text.state());
            let calls;
            (result, calls) = text.reading().judge(&mut chain);
            states::put(&chain.state(), text.size(1, 2), &mut state);
            said = verdict_bytes(verdict(&result), result.relative_index);
            self.exits[exit(verdict(&result), &calls)] = true;
        }
        let said: String = said.iter().map(|b| format!("{b:02x}")).collect();
        self.lines += &format!(
            "{}{refusal} {said} {:016x} {:016x}\n",
            &text.0[..TITLE],
            bytes_sum(&state),
            buffers_sum(&result),
        );
    }
}

/// Writes the program's input and the lines that it is to print.
pub fn write() -> Result<()> {
    let made = Made::of_script()?;
    let bytes = made.records.len();
    println!("{} readings, {bytes} bytes", made.lines.lines().count());
    fs::write(READINGS, made.records)?;
    fs::write(LINES, made.lines)
}

pub fn compare(tally: &mut Tally, _: &mut Random) {
    let made = Made::of_script().expect(SCRIPT);
    let records = fs::read(READINGS).unwrap_or_default();
    let lines = fs::read_to_string(LINES).unwrap_or_default();
    print!("{}", made.lines);
    let kept = lines.lines().chain(std::iter::repeat(""));
    for (k, (line, kept)) in made.lines.lines().zip(kept).enumerate() {
        tally.compare(&(line == kept), &true, || format!("stored: {kept}"));
        let at = k * RECORD..(k + 1) * RECORD;
        let same = records.get(at.clone()) == made.records.get(at);
        tally.compare(&same, &true, || format!("bytes of {line}"));
    }
    let lengths = [records.len(), lines.len()];
    let due = [made.records.len(), made.lines.len()];
    tally.compare(&lengths, &due, || "lengths of the files".into());
    tally.compare(&made.exits, &[true; 9], || "exits reached".into());
    tally.compare(&made.refusals[2..], &[true; 5][..], || {
        "refusals given".into()
    });
}
