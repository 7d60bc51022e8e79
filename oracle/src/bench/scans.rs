//! That a scan's time goes with what it reads: judgments that differ in which coordinate settles the
//! noise pass, or every neighbour's box, and in nothing else. Beside them one that no coordinate
//! settles, which takes another exit.

use std::array::from_fn;

use rcflib::trcf::predictorcorrector::PredictorCorrector;
use rcflib::trcf::types::ScoringStrategy;

use super::judging::{Prepared, Row, RAISING};
use super::timing::best;
use crate::random::Random;
use crate::readings::exits::{FIELD, NOISE, RAISED};
use crate::readings::Reading;
use crate::scans::{replayed, Case, Operation};

/// Judgments in a pass.
const CALLS: usize = 16;

/// 1,024 coordinates in one pass.
const PASS: Row = Row {
    size: (64, 16),
    strategy: ScoringStrategy::DISTANCE,
    raised: true,
    neighbours: 0,
};

/// Sixteen coordinates to each of 256 neighbours, whose points are short: every float of theirs is
/// tested for being finite before.
const BOX: Row = Row {
    size: (2, 16),
    strategy: ScoringStrategy::DISTANCE,
    raised: true,
    neighbours: 256,
};

/// The coordinate that settles it, by name and place counted from 0.
type Settling = (&'static str, Option<usize>);

/// Which of n coordinates settles it: the first, the middle one, the last, none.
fn settling(n: usize) -> [Settling; 4] {
    [
        ("first", Some(0)),
        ("middle", Some(n / 2 - 1)),
        ("last", Some(n - 1)),
        ("none", None),
    ]
}

/// What our program says that the case's scan reads, which has to end at this coordinate.
fn read(case: &Case, place: Option<usize>) -> usize {
    let found = case.scan();
    let lines = replayed(&case.bytes()).expect("scan_replay run");
    assert_eq!(lines, [case.line(&found)]);
    assert_eq!(found.read(), place.map_or(case.coordinates(), |k| k + 1));
    found.read()
}

/// Judges with one coordinate of the point over its line.
fn pass(random: &mut Random) -> [(String, usize, Prepared); 4] {
    let chain = PASS.chain(random);
    let mut reading = PASS.reading(random, RAISING);
    for x in &mut reading.point {
        *x = (5e-4 * random.fraction()) as f32;
    }
    settling(reading.point.len()).map(|(name, place)| {
        let mut reading = reading.clone();
        if let Some(k) = place {
            reading.point[k] = 1.0;
        }
        let Reading {
            scale,
            shift,
            deviations,
            point,
            ..
        } = reading.clone();
        let case = Case {
            operation: Operation::Pass,
            number: reading.base,
            slices: [scale, shift, deviations, point],
        };
        let name = format!("noise pass, {name} over its line");
        let way = place.map_or(NOISE, |_| RAISED);
        let prepared = Prepared::new(reading, chain.clone(), (&name, way));
        (name, read(&case, place), prepared)
    })
}

/// Where the row of the block that stands out starts.
fn start(reading: &Reading) -> usize {
    let block = reading
        .attribution
        .max_gap_contribution(reading.base, reading.gap());
    block.expect("whole blocks") * reading.base
}

/// Judges with one coordinate of every neighbour outside the box.
fn around_box(random: &mut Random) -> [(String, usize, Prepared); 4] {
    let chain = BOX.chain(random);
    let mut reading = BOX.reading(random, RAISING);
    let (start, base) = (start(&reading), reading.base);
    for neighbour in &mut reading.neighbours {
        let near = |x: &f32| x + 0.05 * random.fraction() as f32;
        *neighbour = reading.point.iter().map(near).collect();
    }
    let edges =
        PredictorCorrector::uncertainty_box(&reading.point, start, base, &reading.descriptor());
    settling(base).map(|(name, place)| {
        let mut reading = reading.clone();
        for neighbour in &mut reading.neighbours {
            if let Some(k) = place {
                neighbour[start + k] += 20.0;
            }
        }
        let (scale, point) = (reading.scale.clone(), reading.point.clone());
        let case = Case {
            operation: Operation::Box,
            number: start,
            slices: [edges.clone(), scale, point, reading.neighbours[0].clone()],
        };
        let name = format!("256 boxes, {name} outside");
        let way = place.map_or(FIELD, |_| RAISED);
        let prepared = Prepared::new(reading, chain.clone(), (&name, way));
        (name, read(&case, place), prepared)
    })
}

/// Times the rows in turns. What a coordinate takes comes from the first and the last one's rows, of
/// `scans` scans each.
fn time(rows: [(String, usize, Prepared); 4], scans: usize) {
    let sides: [Box<dyn Fn() -> f64>; 8] = from_fn(|k| -> Box<dyn Fn() -> f64> {
        let prepared = &rows[k / 2].2;
        match k % 2 {
            0 => Box::new(|| prepared.ours(CALLS)),
            _ => Box::new(|| prepared.rust(CALLS)),
        }
    });
    let times = best(sides.each_ref().map(|side| &**side));
    for ((name, read, _), time) in rows.iter().zip(times.chunks(2)) {
        let (a, b) = (time[0], time[1]);
        println!("{name:<34} {read:>9} {a:>9.1} {b:>9.1} {:>9.2}", a / b);
    }
    let coordinates = (scans * (rows[2].1 - rows[0].1)) as f64;
    let [ours, rust] = [0, 1].map(|side| (times[4 + side] - times[side]) / coordinates);
    println!("    from the first to the last, ns a coordinate: ours {ours:.2}, rust {rust:.2}");
}

pub fn run(random: &mut Random) {
    println!(
        "{:<34} {:>9} {:>9} {:>9} {:>9}",
        "", "read", "ours", "rust", "ratio"
    );
    time(pass(random), 1);
    time(around_box(random), BOX.neighbours);
}
