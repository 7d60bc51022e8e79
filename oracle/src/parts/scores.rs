//! The program score_watch against the plain Rust one: what both print for the stored cases, for
//! random scores, for inputs with a bad line or with bytes changed, and at the limit of 65,536 lines.

use crate::both;
use crate::changed::change;
use crate::random::Random;
use crate::scores::kinds::Kinds;
use crate::scores::making::{every_fault, judged, lines, mixed};
use crate::scores::plain;
use crate::tally::Tally;

const SOUND: u64 = 600;
const FAULTS: u64 = 40;
const CHANGED: u64 = 2_000;

/// How many times the limit is tried with random scores.
const FULL: u64 = 3;

/// How many inputs end where one of the program's reads does.
const READS: u64 = 10;

/// Bytes that changed inputs get.
const BYTES: &[u8] = b"\r\n\n +-.0089aFgx\0\xff";

/// How often each kind has to come up.
const LEAST: u64 = 20;

const LINES: usize = 65_536;

/// What stands behind the last line that is read.
const MORE: [&[u8]; 8] = [
    b"3f800000\n",
    b"3f800000",
    b"00000000\n",
    b"80000000",
    b"00000000\n00000000\n",
    b"7f800000\n",
    b"\n",
    b"x",
];

type Both<'a> = both::Both<'a, Kinds>;

/// The score watch's stored cases, by what stands before them.
fn stored(both: &mut Both) {
    both.stored(".in", "", 0);
    both.stored(".lines", &"3f800000\n".repeat(LINES), LINES + 1);
    both.stored(".skips", &"00000000\n".repeat(LINES), LINES + 1);
}

fn sound(both: &mut Both, random: &mut Random) {
    both.print_last("empty", b"", "quiet 0 raised 0 skipped 0\n");
    for k in 0..SOUND {
        let most = random.of(&[3, 40, 400, 4_000]);
        let scores = mixed(random.below(most), random);
        let mut bytes = lines(&scores, random);
        if k % 3 == 0 {
            bytes.pop();
        }
        both.print("sound", &bytes);
    }
    for _ in 0..READS {
        // Four reads' bytes without a last line end, and nine reads' with it.
        let mut open = lines(&mixed(3_641, random), random);
        open.pop();
        both.print("as long as reads", &open);
        let closed = lines(&mixed(8_192, random), random);
        both.print("as long as reads", &closed);
    }
}

fn faulty(both: &mut Both, random: &mut Random) {
    for _ in 0..FAULTS {
        for (bytes, last) in every_fault(random) {
            both.print_last("faulty", &bytes, &last);
        }
    }
    for long in [b'0', b'3', b'-'] {
        let mut bytes = lines(&[1.0, 0.0, -0.0], random);
        bytes.extend([long; 100_000]);
        both.print_last("a long line", &bytes, "bad line 4\n");
    }
    for _ in 0..CHANGED {
        let scores = mixed(random.below(30), random);
        let mut bytes = lines(&scores, random);
        change(&mut bytes, BYTES, random);
        both.print("changed", &bytes);
    }
}

/// So many lines as may be: alone, with the last one open, and with more behind them.
fn full(both: &mut Both, scores: &[f32], random: &mut Random) {
    let full = lines(scores, random);
    both.print("full", &full);
    both.print("full and open", &full[..full.len() - 1]);
    for more in MORE {
        let bytes = [&full, more].concat();
        both.print_last("over the limit", &bytes, "bad line 65537\n");
    }
}

/// The limit of 65,536 lines: all quiet, all skipped, all judged, or mixed.
fn limit(both: &mut Both, random: &mut Random) {
    for score in [1.0, 0.0, -0.0] {
        full(both, &[score; LINES], random);
    }
    for _ in 0..FULL {
        let scores = judged(LINES as u64, random);
        full(both, &scores, random);
        let scores = mixed(LINES as u64, random);
        full(both, &scores, random);
    }
}

pub fn compare(tally: &mut Tally, random: &mut Random) {
    let plain = |input: &[u8], out: &mut Vec<u8>| plain::watch(input, out);
    let mut both = Both::new("score_watch", plain, tally);
    stored(&mut both);
    sound(&mut both, random);
    faulty(&mut both, random);
    limit(&mut both, random);
    both.kinds.report(both.tally, LEAST);
}
