//! The parts of the comparison. A new one is a file here and a line in the list.

mod buffers;
mod bytes;
mod conversions;
mod demand3;
mod deviation;
mod drawer;
mod drill;
pub mod exits;
mod exports;
mod floor;
mod grades;
mod judging;
mod narrow;
mod newest;
mod pool;
mod root;
mod scans;
mod scores;
mod standin;
mod thresholder;
mod training;
mod util;
pub mod vectors;

use crate::random::Random;
use crate::tally::Tally;

pub struct Part {
    pub name: &'static str,
    pub compare: fn(&mut Tally, &mut Random),
}

const fn part(name: &'static str, compare: fn(&mut Tally, &mut Random)) -> Part {
    Part { name, compare }
}

pub const PARTS: &[Part] = &[
    part("floor", floor::compare),
    part("narrow", narrow::compare),
    part("root", root::compare),
    part("conversions", conversions::compare),
    part("util", util::compare),
    part("deviation", deviation::compare),
    part("thresholder", thresholder::compare),
    part("grades", grades::compare),
    part("vectors", vectors::compare),
    part("newest", newest::compare),
    part("standin", standin::compare),
    part("drill", drill::compare),
    part("exits", exits::compare),
    part("judging", judging::compare),
    part("drawer", drawer::compare),
    part("bytes", bytes::compare),
    part("expected", buffers::expected),
    part("corrector", buffers::corrector),
    part("adjusting", buffers::adjusting),
    part("missing", buffers::missing),
    part("asked", buffers::asked),
    part("demand3", demand3::compare),
    part("scores", scores::compare),
    part("exports", exports::compare),
    part("training", training::compare),
    part("scans", scans::compare),
    part("pool", pool::compare),
];
