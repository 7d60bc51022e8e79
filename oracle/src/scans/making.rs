//! Random cases: the places of the hits are chosen first, then floats that make them so, many of them
//! next to a limit. One case in eight is spoilt so that its slices do not fit.

use super::{Case, Operation, Test};
use crate::random::Random;
use crate::values;

/// The most coordinates of a scan.
const LONGEST: usize = 1024;

/// The most floats in front of the box's row.
const IN_FRONT: u64 = 70;

/// How many floats are tried for a coordinate before one is taken that is sure to do.
const TRIES: usize = 6;

const SPECIAL: [f32; 10] = [
    f32::NAN,
    -f32::NAN,
    f32::INFINITY,
    f32::NEG_INFINITY,
    0.0,
    -0.0,
    1e-45,
    -1e-45,
    1e-39,
    -1e-39,
];

fn any(random: &mut Random) -> f32 {
    match random.below(3) {
        0 => random.of(&SPECIAL),
        _ => values::any32(random, values::list32()),
    }
}

/// From -4 on and below 4.
fn middling(random: &mut Random) -> f32 {
    (8.0 * random.fraction() - 4.0) as f32
}

fn power(random: &mut Random) -> f32 {
    (values::few(random) as f32).exp2()
}

/// A scale or an edge: most often positive, a power of two in a third of the cases.
fn size(random: &mut Random) -> f32 {
    match random.below(16) {
        0 => any(random),
        1 => 0.0,
        2..=6 => power(random),
        _ => (0.05 + 2.0 * random.fraction()) as f32,
    }
}

/// A shift or a coordinate of the other point.
fn place(random: &mut Random) -> f32 {
    match random.below(16) {
        0 => any(random),
        1..=3 => 0.0,
        4..=6 => power(random),
        _ => middling(random),
    }
}

fn floats(random: &mut Random, n: usize) -> Vec<f32> {
    (0..n).map(|_| place(random)).collect()
}

/// Now and then a few floats more than are looked at.
fn lengthen(random: &mut Random, list: &mut Vec<f32>) {
    if random.once_in(4) {
        let n = 1 + random.below(3) as usize;
        list.extend(floats(random, n));
    }
}

/// At which of n places a hit is wanted: at one, none or all, or from one on at all or some.
fn places(random: &mut Random, n: usize) -> Vec<bool> {
    let kind = random.below(9);
    let any = random.below(n as u64) as usize;
    let wanted = |i: usize| match kind {
        0 => i == 0,
        1 | 2 => i == any,
        3 => i + 1 == n,
        4 => i >= any,
        5 => i >= any && random.once_in(4),
        6 | 7 => false,
        _ => true,
    };
    (0..n).map(wanted).collect()
}

/// A float that the test finds hit, or not, as wanted: a few steps from where a limit is reached,
/// between there and twice as far, or any.
fn coordinate(
    random: &mut Random,
    wanted: bool,
    limits: [f32; 2],
    test: impl Fn(f32) -> Test,
) -> f32 {
    for _ in 0..TRIES {
        let limit = random.of(&limits);
        let x = match random.below(8) {
            0..=3 => values::step32(limit, values::few(random) as i32),
            4 | 5 => limit * (2.0 * random.fraction()) as f32,
            6 => middling(random),
            _ => any(random),
        };
        if test(x).is_hit() == wanted {
            return x;
        }
    }
    let sure = [f32::INFINITY, f32::NEG_INFINITY, 0.0, f32::NAN];
    let fitting = sure.into_iter().find(|x| test(*x).is_hit() == wanted);
    fitting.expect("scale and limits that leave both open")
}

/// How long the pass's point is: not shorter than its base, and often a multiple of it.
fn point_length(random: &mut Random, base: usize) -> usize {
    let n = match random.below(64) {
        0 => LONGEST,
        1 => base + random.below((LONGEST - base) as u64) as usize,
        2..=13 => base,
        14..=33 => base + random.below(16) as usize,
        _ => base + random.below(64) as usize,
    };
    match random.once_in(2) {
        true => n - n % base,
        false => n,
    }
}

/// Scale and shift of a column, under which there is a hit if one is wanted.
fn column(random: &mut Random, wanted: bool) -> (f32, f32) {
    loop {
        let (scale, shift) = (size(random), place(random));
        if !wanted || Test::of_pass(f32::INFINITY, scale, shift).is_hit() {
            return (scale, shift);
        }
    }
}

fn pass(random: &mut Random) -> Case {
    let base = 1 + random.below(16) as usize;
    let n = point_length(random, base);
    let wanted = places(random, n);
    let columns = (0..base).map(|k| {
        let mut column_wanted = wanted.iter().skip(k).step_by(base);
        column(random, column_wanted.any(|hit| *hit))
    });
    let (mut scale, mut shift): (Vec<f32>, Vec<f32>) = columns.unzip();
    let coordinates = wanted.iter().enumerate().map(|(i, &wanted)| {
        let (scale, shift) = (scale[i % base], shift[i % base]);
        let limit = Test::of_pass(0.0, scale, shift).high / scale;
        coordinate(random, wanted, [limit, -limit], |x| {
            Test::of_pass(x, scale, shift)
        })
    });
    let point = coordinates.collect();
    let mut deviations = floats(random, base);
    for list in [&mut scale, &mut shift, &mut deviations] {
        lengthen(random, list);
    }
    Case {
        operation: Operation::Pass,
        number: base,
        slices: [scale, shift, deviations, point],
    }
}

/// Edge, scale and the other point's coordinate, under which there is a hit if one is wanted.
fn edge(random: &mut Random, wanted: bool) -> (f32, f32, f32) {
    loop {
        let (edge, scale, other) = (size(random), size(random), place(random));
        if !wanted || Test::of_box(edge, scale, f32::INFINITY, other).is_hit() {
            return (edge, scale, other);
        }
    }
}

/// An empty box: the other slices may have any length, and the row may start behind them.
fn empty_box(random: &mut Random) -> Case {
    let mut some = || {
        let n = random.below(4) as usize;
        floats(random, n)
    };
    let slices = [vec![], some(), some(), some()];
    Case {
        operation: Operation::Box,
        number: random.of(&[0, 1, 2, 3, 4, 256, 65_535]),
        slices,
    }
}

fn box_length(random: &mut Random) -> usize {
    let n = match random.below(64) {
        0 => LONGEST as u64,
        1 => random.below(LONGEST as u64),
        2..=4 => 0,
        5..=7 => 1,
        8..=19 => random.below(64),
        _ => 1 + random.below(16),
    };
    n as usize
}

fn around_box(random: &mut Random) -> Case {
    let n = box_length(random);
    if n == 0 {
        return empty_box(random);
    }
    let start = random.below(IN_FRONT + 1) as usize * random.below(2) as usize;
    let (mut edges, mut scales) = (vec![], vec![]);
    let (mut point, mut others) = (floats(random, start), floats(random, start));
    for wanted in places(random, n) {
        let (edge, scale, other) = edge(random, wanted);
        let Test { low, high, .. } = Test::of_box(edge, scale, 0.0, other);
        let limits = [low / scale, high / scale];
        point.push(coordinate(random, wanted, limits, |x| {
            Test::of_box(edge, scale, x, other)
        }));
        edges.push(edge);
        scales.push(scale);
        others.push(other);
    }
    for list in [&mut scales, &mut point, &mut others] {
        lengthen(random, list);
    }
    Case {
        operation: Operation::Box,
        number: start,
        slices: [edges, scales, point, others],
    }
}

fn shorten(random: &mut Random, list: &mut Vec<f32>, below: usize) {
    list.truncate(random.below(below as u64) as usize);
}

/// Makes the base 0 or longer than all, or slices shorter than it.
fn spoil_pass(random: &mut Random, case: &mut Case) {
    let base = case.number;
    match random.below(8) {
        0 => case.number = 0,
        1 => {
            case.number = 0;
            case.slices = Default::default();
        }
        2 => case.number = random.of(&[LONGEST + 1, 65_535]),
        3 => {
            for list in &mut case.slices {
                if random.once_in(2) {
                    shorten(random, list, base);
                }
            }
        }
        k => shorten(random, &mut case.slices[k as usize - 4], base),
    }
}

/// Starts the row behind the points, or makes slices too short for the box, which is not empty.
fn spoil_box(random: &mut Random, case: &mut Case) {
    let row = case.coordinates();
    let end = case.number + row;
    let [_, scale, point, other] = &mut case.slices;
    match random.below(5) {
        0 => {
            let longest = point.len().max(other.len());
            case.number = random.of(&[longest + 1, longest + 256, 65_535]);
        }
        1 => {
            for (list, least) in [(scale, row), (point, end), (other, end)] {
                if random.once_in(2) {
                    shorten(random, list, least);
                }
            }
        }
        2 => shorten(random, scale, row),
        3 => shorten(random, point, end),
        _ => shorten(random, other, end),
    }
}

pub fn case(random: &mut Random, operation: Operation) -> Case {
    let mut case = match operation {
        Operation::Pass => pass(random),
        Operation::Box => around_box(random),
    };
    if random.once_in(8) {
        match operation {
            Operation::Pass => spoil_pass(random, &mut case),
            Operation::Box if case.coordinates() > 0 => spoil_box(random, &mut case),
            Operation::Box => {}
        }
    }
    case
}
