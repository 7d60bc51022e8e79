//! What a case has of that which has to come up: where its hits are, how many coordinates it has, how
//! they lie to their limits, how its slices do not fit, which floats stand in them.

use std::ops::RangeInclusive;

use super::{Case, Found, Operation, Test};
use crate::values::step32;

/// A case after the scan of all its coordinates.
struct Scanned<'a> {
    case: &'a Case,
    found: &'a Found,
    nearness: Nearness,
}

/// How some of a case's coordinates lie to their limits; pairs are of the lower and the upper one.
#[derive(Default)]
struct Nearness {
    /// On the limit, and no hit.
    on: [bool; 2],
    /// A hit, while the float beside it is none.
    beyond: [bool; 2],
    /// No hit and on no limit, while the float beside it is a hit.
    before: [bool; 2],
    /// In front of the first hit: a coordinate on a limit; one whose value or limit is NaN.
    tie_read: bool,
    nan_read: bool,
}

/// A name, and whether a case is of this kind.
type Kind = (&'static str, fn(&Scanned) -> bool);
type Group = (&'static str, &'static [Kind]);

/// The places of the limits in a pair.
const LOW: usize = 0;
const HIGH: usize = 1;

const BOTH: &[Group] = &[
    (
        "hits",
        &[
            ("the only coordinate", |s| s.all(1..=1)),
            ("not the only coordinate", |s| s.n() == 1 && s.hits() == 0),
            ("none", |s| s.n() > 1 && s.hits() == 0),
            ("the first", |s| s.only(|place, n| place == 0 && n > 1)),
            ("a middle one", |s| {
                s.only(|place, n| place > 0 && place + 1 < n)
            }),
            ("the last", |s| {
                s.only(|place, n| place > 0 && place + 1 == n)
            }),
            ("several", |s| s.hits() > 1 && s.hits() < s.n()),
            ("every one", |s| s.all(2..=1024)),
        ],
    ),
    (
        "coordinates",
        &[
            ("1", |s| s.n() == 1),
            ("2 to 16", |s| (2..=16).contains(&s.n())),
            ("17 to 64", |s| (17..=64).contains(&s.n())),
            ("65 to 1023", |s| (65..=1023).contains(&s.n())),
            ("1024", |s| s.n() == 1024),
            ("read 257 and more", |s| s.found.read() > 256),
            ("read 1000 and more", |s| s.found.read() >= 1000),
        ],
    ),
    (
        "upper limit",
        &[
            ("on it", |s| s.nearness.on[HIGH]),
            ("next beyond", |s| s.nearness.beyond[HIGH]),
            ("next before", |s| s.nearness.before[HIGH]),
        ],
    ),
    (
        "before the first hit",
        &[
            ("on a limit", |s| s.nearness.tie_read),
            ("NaN", |s| s.nearness.nan_read),
        ],
    ),
];

const PASS: &[Group] = &[
    (
        "rows",
        &[
            ("whole", |s| s.n() > 0 && s.n() % s.case.number == 0),
            ("the last one cut off", |s| {
                s.n() > 0 && s.n() % s.case.number > 0
            }),
            ("the first hit behind the first row", |s| {
                s.found.first >= Some(s.case.number.max(1))
            }),
            ("more floats than the base", |s| {
                s.n() > 0 && s.case.slices[..3].iter().any(|x| x.len() > s.case.number)
            }),
        ],
    ),
    (
        "unfit",
        &[
            ("base 0", |s| s.case.number == 0 && s.floats() > 0),
            ("base 0 and no floats", |s| {
                s.case.number == 0 && s.floats() == 0
            }),
            ("scale short", |s| s.shorts([true, false, false, false])),
            ("shift short", |s| s.shorts([false, true, false, false])),
            ("deviations short", |s| {
                s.shorts([false, false, true, false])
            }),
            ("point short", |s| s.shorts([false, false, false, true])),
            ("several short", |s| (2..4).contains(&s.short())),
            ("all short", |s| s.short() == 4),
        ],
    ),
];

const BOX: &[Group] = &[
    (
        "lower limit",
        &[
            ("on it", |s| s.nearness.on[LOW]),
            ("next beyond", |s| s.nearness.beyond[LOW]),
            ("next before", |s| s.nearness.before[LOW]),
        ],
    ),
    (
        "row",
        &[
            ("of no coordinates", |s| {
                s.case.coordinates() == 0 && !s.starts_behind()
            }),
            ("of no coordinates, behind the points", |s| {
                s.case.coordinates() == 0 && s.starts_behind()
            }),
            ("at 0", |s| s.n() > 0 && s.case.number == 0),
            ("further on", |s| s.n() > 0 && s.case.number > 0),
            ("longer scale", |s| {
                s.n() > 0 && s.case.slices[1].len() > s.n()
            }),
            ("longer points", |s| {
                let row = s.case.number + s.n();
                s.n() > 0 && s.case.slices[2..].iter().any(|x| x.len() > row)
            }),
        ],
    ),
    (
        "unfit",
        &[
            ("scale short", |s| s.shorts([false, true, false, false])),
            ("point short", |s| s.shorts([false, false, true, false])),
            ("other point short", |s| {
                s.shorts([false, false, false, true])
            }),
            ("several short", |s| s.short() > 1 && !s.starts_behind()),
            ("row behind the points", |s| {
                s.short() > 0 && s.starts_behind()
            }),
        ],
    ),
];

const PASS_SLICES: [&str; 4] = ["scale", "shift", "deviations", "point"];
const BOX_SLICES: [&str; 4] = ["box", "scale", "point", "other point"];

/// A name, and whether a float is this one or of this sort.
type Value = (&'static str, fn(f32) -> bool);

/// Floats that have to stand in every slice where it is looked at.
const VALUES: [Value; 6] = [
    ("NaN", f32::is_nan),
    ("infinity", |x| x == f32::INFINITY),
    ("-infinity", |x| x == f32::NEG_INFINITY),
    ("0", |x| x.to_bits() == 0),
    ("-0", |x| x.to_bits() == 1 << 31),
    ("subnormal", f32::is_subnormal),
];

impl Scanned<'_> {
    /// How many coordinates there are, 0 where the slices do not fit.
    fn n(&self) -> usize {
        self.found.looked
    }

    fn hits(&self) -> usize {
        self.found.hits
    }

    /// All coordinates are hits, and so many.
    fn all(&self, lengths: RangeInclusive<usize>) -> bool {
        self.hits() == self.n() && lengths.contains(&self.n())
    }

    /// There is one hit, at a place like this among n.
    fn only(&self, place: fn(usize, usize) -> bool) -> bool {
        let one = self.hits() == 1;
        one && self.found.first.is_some_and(|k| place(k, self.n()))
    }

    fn floats(&self) -> usize {
        self.case.slices.iter().map(Vec::len).sum()
    }

    /// These slices are too short and no others.
    fn shorts(&self, which: [bool; 4]) -> bool {
        self.case.shorts() == which
    }

    /// How many slices are too short.
    fn short(&self) -> usize {
        self.case.shorts().iter().filter(|short| **short).count()
    }

    /// The row starts behind both points.
    fn starts_behind(&self) -> bool {
        let points = &self.case.slices[2..];
        points.iter().all(|x| x.len() < self.case.number)
    }
}

/// On which side of its limits a hit lies.
fn sides(test: Test) -> [bool; 2] {
    [test.value < test.low, test.value > test.high]
}

fn nearness(case: &Case, found: &Found) -> Nearness {
    let mut near = Nearness::default();
    let note = |noted: &mut [bool; 2], which: [bool; 2]| {
        noted[LOW] |= which[LOW];
        noted[HIGH] |= which[HIGH];
    };
    for i in 0..found.looked {
        let x = case.coordinate(i);
        let test = case.test(i, x);
        let on = [test.low, test.high].map(|limit| limit.is_finite() && test.value == limit);
        let beside = [-1, 1].map(|by| step32(x, by));
        for next in beside.iter().filter(|next| !next.is_nan()) {
            let next = case.test(i, *next);
            match (test.is_hit(), next.is_hit()) {
                (true, false) => note(&mut near.beyond, sides(test)),
                (false, true) if on == [false; 2] => note(&mut near.before, sides(next)),
                _ => {}
            }
        }
        if !test.is_hit() {
            note(&mut near.on, on);
        }
        if found.first.is_some_and(|first| i < first) {
            near.tie_read |= on != [false; 2];
            near.nan_read |= test.value.is_nan() || test.high.is_nan();
        }
    }
    near
}

/// The part of each slice that is looked at.
fn looked_at<'a>(case: &'a Case, found: &Found) -> [&'a [f32]; 4] {
    let (n, start) = (found.looked, case.number);
    let parts = match case.operation {
        _ if n == 0 => [0..0, 0..0, 0..0, 0..0],
        Operation::Pass => [0..start, 0..start, 0..start, 0..n],
        Operation::Box => [0..n, 0..n, start..start + n, start..start + n],
    };
    std::array::from_fn(|k| &case.slices[k][parts[k].clone()])
}

fn groups(operation: Operation) -> impl Iterator<Item = &'static Group> {
    BOTH.iter().chain(match operation {
        Operation::Pass => PASS,
        Operation::Box => BOX,
    })
}

/// The bases that have to come up.
const BASES: RangeInclusive<usize> = 1..=16;

/// The kinds by name, each with what it is about.
pub fn names(operation: Operation) -> Vec<(&'static str, String)> {
    let kinds = groups(operation).flat_map(|(group, kinds)| {
        let names = kinds.iter().map(|(name, _)| name.to_string());
        names.map(|name| (*group, name))
    });
    let mut names: Vec<(&str, String)> = kinds.collect();
    let slices = match operation {
        Operation::Pass => {
            names.extend(BASES.map(|base| ("base", base.to_string())));
            PASS_SLICES
        }
        Operation::Box => BOX_SLICES,
    };
    for slice in slices {
        names.extend(VALUES.map(|(name, _)| (slice, name.to_string())));
    }
    names
}

/// Which of them a case is of, in the same order.
pub fn of(case: &Case, found: &Found) -> Vec<bool> {
    let scanned = Scanned {
        case,
        found,
        nearness: nearness(case, found),
    };
    let kinds = groups(case.operation).flat_map(|(_, kinds)| kinds.iter());
    let mut of: Vec<bool> = kinds.map(|(_, is)| is(&scanned)).collect();
    if case.operation == Operation::Pass {
        of.extend(BASES.map(|base| found.looked > 0 && case.number == base));
    }
    for slice in looked_at(case, found) {
        of.extend(VALUES.map(|(_, is)| slice.iter().any(|x| is(*x))));
    }
    of
}
