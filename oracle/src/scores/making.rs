//! Inputs for the score watch: sound ones, with zeros among their scores or without, and ones with a
//! bad line.

use crate::digits::cased;
use crate::random::Random;
use crate::values::{any32, list32};

/// Lines that are bad wherever they stand.
const FAULTS: &[&[u8]] = &[
    b"",
    b"0",
    b"0000000",
    b"8000000",
    b"3f80000",
    b"000000000",
    b"800000000",
    b"3f8000000",
    b"3f8000003f800000",
    b"\r",
    b"0000000\r",
    b"00000000\r",
    b"3f800000\r",
    b"\r3f80000",
    b" ",
    b" 0000000",
    b"00000000 ",
    b"3f80 000",
    b"3f800000 ",
    b"+",
    b"-",
    b"- -",
    b"+0000000",
    b"-0000000",
    b"-3f80000",
    b"3f800000-",
    b"\0",
    b"0000000\0",
    b"00000000\0",
    b"3f80\x00000",
    b"\t3f80000",
    b"0x000000",
    b"0x3f8000",
    b"0.000000",
    b"3f80000/",
    b"3f80000:",
    b"3f80000@",
    b"3f80000G",
    b"3f80000`",
    b"3f80000g",
    b"\xef\xbb\xbf3f800000",
    b"0000000\xb0",
    b"00000000\xff",
    b"3f80000\xc1",
    b"7f800000",
    b"7F800000",
    b"ff800000",
    b"FF800000",
    b"7f800001",
    b"7fbfffff",
    b"7FC00000",
    b"7fffffff",
    b"ff800001",
    b"ffc00000",
    b"FFFFFFFF",
];

fn any_judged(random: &mut Random) -> f32 {
    loop {
        let score = any32(random, list32());
        if score.is_finite() && score != 0.0 {
            return score;
        }
    }
}

/// Scores other than zero, all of them finite: calm ones or ever the same one, and one in twenty far
/// over them; below zero or not, subnormal, of size 1 to 60, or huge. Or any.
pub fn judged(count: u64, random: &mut Random) -> Vec<f32> {
    if random.once_in(8) {
        return (0..count).map(|_| any_judged(random)).collect();
    }
    let width = random.of(&[0.0, 4.0, 4.0]);
    let shift = random.of(&[0.0, 0.0, -60.0]);
    let scale = 2f64.powi(random.of(&[0, 0, -140, 121]));
    let score = |random: &mut Random| match random.below(20) {
        0 => 10.0 + 40.0 * random.fraction(),
        _ => 1.0 + width * random.fraction(),
    };
    (0..count)
        .map(|_| ((score(random) + shift) * scale) as f32)
        .collect()
}

/// Scores, one in so many of them zero and now and then a run of zeros at the start, at the end or
/// anywhere.
pub fn mixed(count: u64, random: &mut Random) -> Vec<f32> {
    let mut scores = judged(count, random);
    let often = random.of(&[0, 0, 1, 2, 5, 50]);
    let length = 1 + random.below(15);
    let (last, any) = (count.saturating_sub(length), random.below(1 + count));
    let starts = [Some(0), Some(last), Some(any), None, None];
    let run = random.of(&starts).map(|start| start..start + length);
    for (k, score) in (0..).zip(&mut scores) {
        let in_run = run.as_ref().is_some_and(|run| run.contains(&k));
        if in_run || (often > 0 && random.once_in(often)) {
            *score = random.of(&[0.0, -0.0]);
        }
    }
    scores
}

/// A line for each score.
pub fn lines(scores: &[f32], random: &mut Random) -> Vec<u8> {
    let line = |score: &f32| cased(format!("{:08x}\n", score.to_bits()), random);
    scores.iter().map(line).collect::<String>().into()
}

/// Inputs for every fault, and the line that they are to end with. The bad line is the last one, with
/// its line end or without, or others follow.
pub fn every_fault(random: &mut Random) -> Vec<(Vec<u8>, String)> {
    let mut made = Vec::new();
    for fault in FAULTS {
        let scores = random.of(&[judged, mixed, mixed]);
        let before = scores(random.below(40), random);
        let open = [&lines(&before, random)[..], fault].concat();
        let closed = [&open[..], b"\n"].concat();
        let others = lines(&mixed(1 + random.below(20), random), random);
        let more = [&closed[..], &others].concat();
        let says = format!("bad line {}\n", before.len() + 1);
        // Nothing behind the last line end is no line.
        if !fault.is_empty() {
            made.push((open, says.clone()));
        }
        made.extend([(closed, says.clone()), (more, says)]);
    }
    made
}
