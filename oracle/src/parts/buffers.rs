//! The calls on a reading's buffers: sound ones against the Rust's own functions, and each of them
//! refused by one damage or two.

use crate::buffers::adjusting::AutoAdjust;
use crate::buffers::asked::AskedOfForest;
use crate::buffers::corrector::Corrector;
use crate::buffers::expected::ExpectedPoint;
use crate::buffers::missing::MissingIndices;
use crate::buffers::Call;
use crate::random::Random;
use crate::tally::Tally;

const CASES: u64 = 1_000_000;

/// How often each number has to come up alone, and each pair of numbers.
const LEAST: u64 = 2_000;

/// How often each combination of yes and no has to come up among the Rust's answers, in a tenth of
/// the cases.
const LEAST_ANSWERS: u64 = 1_000;

fn sound<C: Call>(tally: &mut Tally, random: &mut Random) -> C {
    let call = C::sound(random);
    tally.compare(&call.refusal(), &0, || format!("sound: {}", call.show()));
    let mut after = call.clone();
    let answer = after.ours();
    tally.compare(&(answer, after.left()), &(0, call.rust()), || call.show());
    call
}

/// A sound call spoilt by one damage, or by two of different numbers: the smaller one, which the
/// table gives as well, and nothing written.
fn refused<C: Call>(tally: &mut Tally, random: &mut Random, mut call: C, seen: &mut [Vec<u64>]) {
    let n = C::NUMBERS.len();
    let (a, b) = (random.below(n as u64), random.below(n as u64));
    let (first, second) = (a.min(b) as usize, a.max(b) as usize);
    seen[first][second] += 1;
    if first < second {
        call.spoil(random, C::NUMBERS[second]);
    }
    call.spoil(random, C::NUMBERS[first]);
    let number = C::NUMBERS[first];
    tally.compare(&call.refusal(), &number, || {
        format!("table: {}", call.show())
    });
    let mut after = call.clone();
    let answer = after.ours();
    tally.compare(&(answer, after.left()), &(number, call.left()), || {
        call.show()
    });
}

fn report<C: Call>(tally: &mut Tally, seen: &[Vec<u64>]) {
    for (k, number) in C::NUMBERS.iter().enumerate() {
        let pairs = C::NUMBERS.iter().zip(&seen[k]).skip(k + 1);
        let pairs: String = pairs.map(|(b, n)| format!(", with {b}: {n}")).collect();
        println!("    refused {number}: alone {}{pairs}", seen[k][k]);
        let least = seen[k][k..].iter().min().expect("a number");
        tally.compare(&(*least >= LEAST), &true, || {
            format!("damages that came up too seldom with {number}")
        });
    }
}

fn compare<C: Call>(tally: &mut Tally, random: &mut Random) {
    let mut seen = vec![vec![0; C::NUMBERS.len()]; C::NUMBERS.len()];
    for _ in 0..CASES {
        let call: C = sound(tally, random);
        refused(tally, random, call, &mut seen);
    }
    report::<C>(tally, &seen);
}

pub fn expected(tally: &mut Tally, random: &mut Random) {
    compare::<ExpectedPoint>(tally, random);
}

pub fn corrector(tally: &mut Tally, random: &mut Random) {
    compare::<Corrector>(tally, random);
}

pub fn adjusting(tally: &mut Tally, random: &mut Random) {
    compare::<AutoAdjust>(tally, random);
}

pub fn missing(tally: &mut Tally, random: &mut Random) {
    compare::<MissingIndices>(tally, random);
}

pub fn asked(tally: &mut Tally, random: &mut Random) {
    compare::<AskedOfForest>(tally, random);
    let mut seen = [0; 16];
    for _ in 0..CASES / 10 {
        let answers = AskedOfForest::sound(random).rust();
        seen[answers[1..].iter().fold(0, |k, n| 2 * k + n)] += 1;
    }
    let least = seen.into_iter().min().expect("sixteen");
    println!(
        "    answers: each of the sixteen at least {least} times in {}",
        CASES / 10
    );
    tally.compare(&(least >= LEAST_ANSWERS), &true, || {
        format!("answers that came up too seldom: {seen:?}")
    });
}
