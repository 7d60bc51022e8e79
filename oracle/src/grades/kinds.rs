//! What kinds of states and lists the part `grades` has tried, and how often each came up.

use super::{Question, Source, State};
use crate::tally::Tally;

/// How often a kind has to come up: of states, of the Rust's grades, of states for DISTANCE, of
/// neighbours in a list whose grades rise, and of lists.
const STATES: u64 = 40_000;
const GRADES: u64 = 20_000;
const DISTANCES: u64 = 1_000;
const NEIGHBOURS: u64 = 500_000;
const LISTS: u64 = 2_000;

pub const SOURCES: [Source; 3] = [Source::Calls, Source::Agreeing, Source::Any];

/// A question put with a list of scores: the Rust's computed threshold and its grades.
pub struct List<'a> {
    pub state: &'a State,
    pub question: &'a Question,
    pub threshold: f32,
    pub scores: &'a [f32],
    pub grades: &'a [f32],
}

/// A name, and whether a list is of this kind.
type Kind = (&'static str, fn(&List) -> bool);

/// The kinds of lists whose grades have to rise.
const GROUPS: &[(&str, &[Kind])] = &[
    (
        "computed threshold",
        &[
            ("NaN", |l| l.threshold.is_nan()),
            ("inf", |l| l.threshold == f32::INFINITY),
            ("-inf", |l| l.threshold == f32::NEG_INFINITY),
            ("0", |l| l.threshold.to_bits() == 0),
            ("-0", |l| is_minus_zero(l.threshold)),
            ("subnormal", |l| l.threshold.is_subnormal()),
            ("below 0", |l| l.threshold < 0.0),
        ],
    ),
    (
        "absolute threshold",
        &[
            ("NaN", |l| l.absolute().is_nan()),
            ("inf", |l| l.absolute() == f32::INFINITY),
            ("-inf", |l| l.absolute() == f32::NEG_INFINITY),
            ("0", |l| l.absolute().to_bits() == 0),
            ("-0", |l| is_minus_zero(l.absolute())),
            ("subnormal", |l| l.absolute().is_subnormal()),
            ("below 0", |l| l.absolute() < 0.0),
            ("eased", |l| l.state.is_eased()),
        ],
    ),
    (
        "factor",
        &[
            ("NaN", |l| l.question.factor.is_nan()),
            ("inf", |l| l.question.factor == f32::INFINITY),
            ("-inf", |l| l.question.factor == f32::NEG_INFINITY),
            ("below 2", |l| l.question.factor < 2.0),
        ],
    ),
    (
        "grades that rise",
        &[
            ("ready", |l| l.rises() && l.state.is_ready()),
            ("not ready", |l| l.rises() && !l.state.is_ready()),
            ("twice, ready", |l| l.rises_twice() && l.state.is_ready()),
            ("twice, not ready", |l| {
                l.rises_twice() && !l.state.is_ready()
            }),
            ("absolute NaN, not ready", |l| {
                l.rises() && l.absolute().is_nan() && !l.state.is_ready()
            }),
            ("threshold below 0", |l| l.rises() && l.threshold < 0.0),
            ("absolute eased", |l| l.rises() && l.state.is_eased()),
        ],
    ),
];

fn is_minus_zero(x: f32) -> bool {
    x == 0.0 && x.is_sign_negative()
}

/// How often a grade is followed by a larger one.
pub fn rises(grades: &[f32]) -> u64 {
    grades.windows(2).filter(|g| g[0] < g[1]).count() as u64
}

impl List<'_> {
    fn absolute(&self) -> f32 {
        self.state.numbers.absolute_threshold
    }

    fn rises(&self) -> bool {
        rises(self.grades) > 0
    }

    /// Over a grade between 0 and 1.
    fn rises_twice(&self) -> bool {
        rises(self.grades) > 1
    }
}

/// The kinds of states for DISTANCE's grades, which are those along a list.
const DISTANCE: &[(&str, fn(&State, &[f32]) -> bool)] = &[
    ("threshold NaN", |s, _| s.rust_distance(0.0).0.is_nan()),
    ("inf", |s, _| s.rust_distance(0.0).0 == f32::INFINITY),
    ("-inf", |s, _| s.rust_distance(0.0).0 == f32::NEG_INFINITY),
    ("below the mean", |s, _| {
        s.rust_distance(0.0).0 < s.primary().0
    }),
    ("a tenth", |_, grades| grades.contains(&0.1)),
    ("from 0 to 1", |_, grades| {
        grades.windows(2).any(|g| g[0] == 0.0 && g[1] == 1.0)
    }),
    ("rising between", |_, grades| {
        grades.windows(2).any(rises_between)
    }),
];

fn rises_between(g: &[f32]) -> bool {
    0.0 < g[0] && g[0] < g[1] && g[1] < 1.0
}

/// How often each kind came up. The first index of a table is where the state comes from.
pub struct Kinds {
    states: [[u64; 3]; 3],
    grades: [[u64; 17]; 3],
    rising: [u64; 3],
    distance: [[u64; DISTANCE.len()]; 3],
    lists: Vec<Vec<u64>>,
    left_out: [[u64; 2]; 3],
}

/// Names with their counts.
fn named<N: ToString>(names: impl IntoIterator<Item = N>, counts: &[u64]) -> Vec<(String, u64)> {
    let names = names.into_iter().map(|name| name.to_string());
    names.zip(counts.iter().copied()).collect()
}

impl Kinds {
    pub fn new() -> Kinds {
        let lists = GROUPS.iter().map(|(_, kinds)| vec![0; kinds.len()]);
        Kinds {
            states: [[0; 3]; 3],
            grades: [[0; 17]; 3],
            rising: [0; 3],
            distance: [[0; DISTANCE.len()]; 3],
            lists: lists.collect(),
            left_out: [[0; 2]; 3],
        }
    }

    pub fn state(&mut self, state: &State) {
        let count = state.numbers.count;
        let size = (count >= 10) as usize + (count > 20) as usize;
        self.states[state.source as usize][size] += 1;
    }

    /// A grade as sixteenths.
    pub fn grade(&mut self, source: Source, sixteenths: usize) {
        self.grades[source as usize][sixteenths] += 1;
    }

    /// A list whose grades have to rise.
    pub fn rising(&mut self, list: &List) {
        self.rising[list.state.source as usize] += rises(list.grades);
        for (counts, (_, kinds)) in self.lists.iter_mut().zip(GROUPS) {
            for (count, (_, is)) in counts.iter_mut().zip(*kinds) {
                *count += is(list) as u64;
            }
        }
    }

    /// A list that lacks the premise on the initial threshold, the one on the counts or both, and
    /// whether its grades fall.
    pub fn left_out(&mut self, state: &State, falls: bool) {
        let no_initial = state.numbers.initial_threshold.is_nan();
        let lacking = match (no_initial, state.counts_agree()) {
            (true, true) => 0,
            (false, _) => 1,
            (true, false) => 2,
        };
        self.left_out[lacking][falls as usize] += 1;
    }

    /// DISTANCE's grades along a list.
    pub fn distance(&mut self, state: &State, grades: &[f32]) {
        let counts = &mut self.distance[state.source as usize];
        for (count, (_, is)) in counts.iter_mut().zip(DISTANCE) {
            *count += is(state, grades) as u64;
        }
    }

    pub fn report(&self, tally: &mut Tally) {
        for source in SOURCES {
            let name = source.name();
            let counts = &self.states[source as usize];
            let sizes = named(["below 10", "10 to 20", "above 20"], counts);
            tally.owed(&format!("states by their count, {name}"), &sizes, STATES);
            let counts = &self.grades[source as usize];
            let sixteenths = named((0..=16).map(|k| format!("{k}/16")), counts);
            tally.owed(&format!("grades, {name}"), &sixteenths, GRADES);
            let counts = &self.distance[source as usize];
            let kinds = named(DISTANCE.iter().map(|(name, _)| name), counts);
            tally.owed(&format!("DISTANCE, {name}"), &kinds, DISTANCES);
        }
        let rising = named(SOURCES.map(Source::name), &self.rising);
        tally.owed("neighbours that rise", &rising[..2], NEIGHBOURS);
        for (counts, (what, kinds)) in self.lists.iter().zip(GROUPS) {
            let each = named(kinds.iter().map(|(name, _)| name), counts);
            tally.owed(&format!("lists, {what}"), &each, LISTS);
        }
        self.report_left_out(tally);
    }

    /// The lists that lack a premise come up too. How many of them fall is told.
    fn report_left_out(&self, tally: &mut Tally) {
        let names = ["initial threshold NaN", "counts differ", "both"];
        let all = self.left_out.map(|[not, falls]| not + falls);
        tally.owed("lists left out", &named(names, &all), LISTS);
        let falls = self.left_out.map(|[_, falls]| falls);
        let each = named(names, &falls).into_iter();
        let each: Vec<String> = each.map(|(name, n)| format!("{name} {n}")).collect();
        println!("    of these fall: {}", each.join(", "));
    }
}
