//! util.rs: `maxf32`, `minf32` and `absf32`.

use rcflib::reach;

use crate::ours;
use crate::random::Random;
use crate::tally::Tally;
use crate::values;

const CASES: u64 = 10_000_000;

fn pair(tally: &mut Tally, a: f32, b: f32) {
    let case = |what: &str| format!("{what} {:08x} {:08x}", a.to_bits(), b.to_bits());
    tally.compare(&ours::maxf32(a, b), &reach::maxf32(a, b), || case("maxf32"));
    tally.compare(&ours::minf32(a, b), &reach::minf32(a, b), || case("minf32"));
}

fn single(tally: &mut Tally, a: f32) {
    tally.compare(&ours::absf32(a), &reach::absf32(a), || {
        format!("absf32 {:08x}", a.to_bits())
    });
}

pub fn compare(tally: &mut Tally, random: &mut Random) {
    let list = values::f32s();
    for &a in &list {
        single(tally, a);
        for &b in &list {
            pair(tally, a, b);
        }
    }
    let notable = values::notable32();
    for _ in 0..CASES {
        let a = values::any32(random, &notable);
        let b = values::any32(random, &notable);
        pair(tally, a, b);
        single(tally, a);
    }
}
