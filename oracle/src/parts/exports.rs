//! The program export_watch against the plain Rust one: what both print for the stored cases, for
//! random exports, sound and damaged, and for large ones.

use crate::both;
use crate::changed::change;
use crate::exports::kinds::Kinds;
use crate::exports::making::{every_fault, Export};
use crate::exports::plain;
use crate::random::Random;
use crate::tally::Tally;

const SOUND: u64 = 300;
const FAULTS: u64 = 8;
const CHANGED: u64 = 1_500;

/// Bytes that changed exports get.
const BYTES: &[u8] = b"\"\"\",,\r\n.0 1x\0\xff";

/// How often each way to end has to come up among the changed exports, and each kind among all.
const LEAST: u64 = 100;

const HEADER: &str = "drawer,seen,score\n";

type Both<'a> = both::Both<'a, Kinds>;

/// The exports among the stored cases, by what stands before them.
fn stored(both: &mut Both) {
    let rows = |row: &str, n: usize| format!("{HEADER}{}", row.repeat(n));
    let million = format!("{HEADER}1,1,1\n{}", "2,1,1\n".repeat(1_000_000));
    both.stored(".csv", "", 0);
    both.stored(".rows", &rows("1,1,1\n", 65_536), 65_537);
    both.stored(".zeros", &rows("1,1,0\n", 65_536), 65_537);
    both.stored(".million", &million, 0);
}

fn random_ones(both: &mut Both, random: &mut Random) {
    for k in 0..SOUND {
        let export = Export::sound(random.below(1_000), random);
        let export = if k % 3 == 0 { export.open() } else { export };
        both.print("sound", &export.bytes);
    }
    for _ in 0..FAULTS {
        for (bytes, last) in every_fault(random) {
            both.print_last("faulty", &bytes, &last);
        }
    }
    both.kinds.ends = [0; 3];
    for _ in 0..CHANGED {
        let mut bytes = Export::sound(random.below(30), random).bytes;
        change(&mut bytes, BYTES, random);
        both.print("changed", &bytes);
    }
    let names = ["counts", "error 9", "error 10"].map(String::from);
    let ends: Vec<_> = names.into_iter().zip(both.kinds.ends).collect();
    both.tally.owed("changed exports", &ends, LEAST);
}

/// The watched drawer's limit of 65,536 rows, all judged, all skipped, or half of them.
fn limit(both: &mut Both) {
    for (two, counts) in [
        ("7,1,1.5\n7,1,1.5\n", "quiet 65536 raised 0 skipped 0\n"),
        ("7,1,0\n7,1,00.000\n", "quiet 0 raised 0 skipped 65536\n"),
        ("7,1,0.0\n7,1,1.5\n", "quiet 32768 raised 0 skipped 32768\n"),
    ] {
        let full = format!("{HEADER}{}", two.repeat(32_768));
        for (more, last) in [
            ("", counts),
            ("7,1,1.5\n", "bad line 65538\n"),
            ("\"7\",1,0", "bad line 65538\n"),
            ("8,1,1\n7,1,1", "bad line 65539\n"),
            ("8,1,1\n8,1,0\n", counts),
            ("7,1,x\n", "bad line 65538 10\n"),
            ("7,1\n", "bad line 65538 9\n"),
            ("8,0,1\n7,1,1\n", "bad line 65538 10\n"),
            ("\n", "bad line 65538 9\n"),
        ] {
            both.print_last("limit", format!("{full}{more}").as_bytes(), last);
        }
    }
}

/// Rows and fields that are longer than a read, and many rows.
fn long(both: &mut Both, random: &mut Random) {
    let zeros = "0".repeat(100_000);
    let rows = "5,1,1\n".repeat(100_000);
    let one = format!("{zeros}7,\"{zeros}1\",1\n");
    let two = format!("7,1,2\n{rows}7,1,1\n{rows}7,1,0\n");
    for (rows, last) in [
        (one, "quiet 1 raised 0 skipped 0\n"),
        (format!("7,1,{zeros}"), "bad line 2 10\n"),
        (format!("7,1,\"{zeros}\n\n\n\""), "bad line 2 10\n"),
        (format!("7,{zeros}1,1\"{zeros}"), "bad line 2 9\n"),
        (format!("x,1,\"{rows}"), "bad line 2 9\n"),
        (format!("7,1,1{}", ",".repeat(100_000)), "bad line 2 9\n"),
        (two, "quiet 2 raised 0 skipped 1\n"),
    ] {
        both.print_last("long", format!("{HEADER}{rows}").as_bytes(), last);
    }
    for _ in 0..4 {
        let export = Export::sound(60_000 + random.below(60_000), random);
        both.print("many rows", &export.bytes);
    }
}

pub fn compare(tally: &mut Tally, random: &mut Random) {
    let plain = |input: &[u8], out: &mut Vec<u8>| plain::watch(input, out);
    let mut both = Both::new("export_watch", plain, tally);
    stored(&mut both);
    random_ones(&mut both, random);
    limit(&mut both);
    long(&mut both, random);
    both.kinds.report(both.tally, LEAST);
}
