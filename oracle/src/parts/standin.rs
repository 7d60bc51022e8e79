//! The Rust's chain over the stand-in forest, by itself: it runs, every exit comes up, the forest
//! is called in the order in which its results are lent, and a state read out and put back is whole.

use rcflib::rcf::Call;
use rcflib::trcf::predictorcorrector::PredictorCorrector;

use crate::random::Random;
use crate::readings::exits::{exit, Exits};
use crate::readings::making::Maker;
use crate::readings::{verdict, Reading};
use crate::tally::Tally;

const SEQUENCES: u64 = 5_000;
const READINGS: u64 = 40;

/// A letter for each call.
fn letters(calls: &[Call]) -> String {
    let letter = |call: &Call| match call {
        Call::Score(_) => 'S',
        Call::Density(_) => 'D',
        Call::Attribution(_) => 'A',
        Call::Neighbours(..) => 'N',
        Call::Field(..) => 'F',
    };
    calls.iter().map(letter).collect()
}

/// The calls that a reading makes if no exit ends it early: score, corrected score, attribution,
/// neighbours, conditional field and the expected point's attribution.
fn whole(reading: &Reading, auto_adjust: bool, field: bool) -> String {
    let (score, attribution) = if reading.is_height() {
        ("S", "A")
    } else {
        ("D", "D")
    };
    let mut calls = score.to_string();
    calls += if reading.corrects() { score } else { "" };
    calls += attribution;
    calls += if auto_adjust { "N" } else { "" };
    calls += if field { "F" } else { "" };
    calls += if reading.gap() < reading.shingle {
        "A"
    } else {
        ""
    };
    calls
}

fn sequence(tally: &mut Tally, random: &mut Random, exits: &mut Exits) {
    let mut maker = Maker::new(random);
    let mut chain = maker.chain();
    for _ in 0..READINGS {
        let reading = maker.next(random, &chain);
        let mut copy = PredictorCorrector::of_state(chain.state());
        let (result, calls) = reading.judge(&mut chain);
        let (again, _) = reading.judge(&mut copy);
        let first = (verdict(&result), chain.state());
        tally.compare(&(verdict(&again), copy.state()), &first, || {
            "a chain made again from its state".to_string()
        });
        let made = letters(&calls);
        let allowed = whole(&reading, maker.auto_adjust, made.contains('F'));
        tally.compare(&allowed.starts_with(&made), &true, || {
            format!("calls {made} where {allowed} are allowed")
        });
        exits.count(&reading, maker.auto_adjust, exit(&result, &calls));
        maker.judged(&reading, &result);
    }
}

pub fn compare(tally: &mut Tally, random: &mut Random) {
    let mut exits = Exits::default();
    for _ in 0..SEQUENCES {
        sequence(tally, random, &mut exits);
    }
    exits.report(tally, 1);
}
