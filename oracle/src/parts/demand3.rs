//! Demand 3 by running: lists of 65,536 DISTANCE readings judged in turn, zero and refused ones among
//! them, against the ledger.

use rcflib::common::descriptor::Descriptor;
use rcflib::common::divector::DiVector;
use rcflib::trcf::basicthresholder::Numbers;
use rcflib::trcf::types::{ScoringStrategy, TransformMethod};

use crate::bytes::Bytes;
use crate::chain::{self, said, Handed};
use crate::fresh;
use crate::ledger::Ledger;
use crate::ours;
use crate::random::Random;
use crate::readings::table::SEEN;
use crate::readings::{Reading, Verdict};
use crate::refusals::NOT_FINITE;
use crate::tally::Tally;

const READINGS: u64 = 65_536;

const DISCOUNTS: [f64; 6] = [0.0, 0.01, 0.5, 1e-5, 5e-324, 1.0 - f64::EPSILON / 2.0];
const FACTORS: [f32; 6] = [fresh::Z_FACTOR, 3.0, 16.0, 0.5, 1e-45, 7.3];

/// The largest score and the least but zero.
const HUGE: f32 = 1_073_741_824.0;
const TINY: f32 = 1.0 / HUGE;

/// The score at a place of a list.
type Pattern = fn(&mut Random, u64) -> f32;

/// How the scores of a list run.
const PATTERNS: [(&str, Pattern); 9] = [
    ("around 1", |r, _| (1.0 + 0.1 * r.fraction()) as f32),
    ("of all sizes", |r, _| sized(r)),
    ("0.1 always", |_, _| 0.1),
    ("2^30 always", |_, _| HUGE),
    ("within an ulp of 0.7", |r, _| {
        f32::from_bits(0.7f32.to_bits() - 1 + r.below(3) as u32)
    }),
    ("huge, then tiny", |_, k| if k < 100 { HUGE } else { TINY }),
    (
        "tiny, then huge",
        |_, k| if k < 60_000 { TINY } else { HUGE },
    ),
    (
        "huge among tiny",
        |r, _| if r.once_in(500) { HUGE } else { TINY },
    ),
    ("growing", |r, k| {
        (TINY as f64 * 1.0005f64.powi(k as i32) * (1.0 + r.fraction())) as f32
    }),
];

/// A score of any size from 2^-30 to 2^30.
fn sized(random: &mut Random) -> f32 {
    let x = 2f64.powf(60.0 * random.fraction() - 30.0) as f32;
    x.clamp(TINY, HUGE)
}

/// What came up in all lists.
#[derive(Default)]
struct Seen {
    lists: u64,
    compared: u64,
    raised: u64,
    refused: u64,
    skipped: u64,
    farthest: f64,
}

fn reading() -> Reading {
    Reading {
        shingle: 4,
        base: 1,
        strategy: ScoringStrategy::DISTANCE,
        method: TransformMethod::NONE,
        time_augmented: false,
        values_seen: 1,
        point: vec![1.0, 1.5, 1.0, 3.0],
        scale: vec![1.0],
        shift: vec![0.0],
        deviations: vec![0.1],
        score: 0.0,
        corrected_score: 0.0,
        attribution: DiVector {
            high: vec![0.0, 0.0, 0.0, 1.0],
            low: vec![0.0; 4],
        },
        expected_attribution: DiVector::empty(4),
        median: vec![-9.0; 4],
        neighbours: vec![vec![90.0; 4]; 2],
        last: Descriptor::default(),
    }
}

/// One list, judged with a state of its own. The forest lends the same point all along.
struct List {
    name: String,
    handed: Handed,
    ledger: Ledger,
}

impl List {
    fn new(discount: f64, z: f32, name: &str, auto_adjust: bool) -> Self {
        let mut state = vec![0; chain::STATE];
        assert_eq!(chain::new(discount, auto_adjust as u8, 1, &mut state), 0);
        // A new state's own z is not set.
        if z != fresh::Z_FACTOR {
            assert_eq!(chain::set_z_factor(&mut state, z), 0);
        }
        List {
            name: format!("{name}, discount {discount:e}, z {z:e}"),
            handed: Handed::new(&state, &reading()),
            ledger: Ledger::new(discount, z),
        }
    }

    /// The opening grade of a score.
    fn opening(&self, score: f32) -> f32 {
        let mut out = [0; 8];
        let state = &self.handed.state[..Numbers::SIZE];
        assert_eq!(ours::primary_threshold_and_grade(state, score, &mut out), 0);
        f32::get(&out[4..])
    }

    fn judge(&mut self, score: f32, k: u64) -> u8 {
        self.handed.reading[15..19].copy_from_slice(&score.to_le_bytes());
        self.handed.reading[SEEN..SEEN + 4].copy_from_slice(&(k as u32 + 1).to_le_bytes());
        self.handed.judge()
    }

    /// A reading that is refused: the state is passed on as it came.
    fn refuse(&mut self, tally: &mut Tally, k: u64) {
        let before = self.handed.state.clone();
        let number = self.judge(f32::INFINITY, k);
        let ours = (number, self.handed.state.clone());
        tally.compare(&ours, &(NOT_FINITE, before), || self.name.clone());
    }

    /// An accepted reading.
    fn accept(&mut self, tally: &mut Tally, score: f32, k: u64, seen: &mut Seen) {
        let opening = self.opening(score);
        let number = self.judge(score, k);
        let (verdict, _) = said(&self.handed.verdict);
        let case = |what: &str| format!("{}, reading {k}, score {score:e}: {what}", self.name);
        let (threshold, grade) = match verdict {
            Verdict::Skipped => (0.0, 0.0),
            Verdict::Quiet(t) | Verdict::Corrected(t, _) => (t, 0.0),
            Verdict::Raised(t, grade) => (t, grade),
        };
        tally.compare(
            &(number, matches!(verdict, Verdict::Skipped)),
            &(0, score == 0.0),
            || case("accepted, and skipped if zero"),
        );
        if score == 0.0 {
            seen.skipped += 1;
            return;
        }
        if self.ledger.counted >= 10 {
            let near = self.ledger.is_near(threshold);
            tally.compare(&near, &true, || case("threshold within M/2048"));
            let opened = opening > 0.0;
            let wrong = (grade != 0.0 && self.ledger.far_under(score))
                || (!opened && self.ledger.far_over(score));
            tally.compare(&wrong, &false, || case("grade on the right side"));
            seen.compared += 1;
            seen.raised += (grade > 0.0) as u64;
            seen.farthest = seen.farthest.max(self.ledger.distance(threshold));
        }
        self.ledger.count(score);
    }
}

/// The ledger itself where its threshold is 5 and M is 3, at the edges of what it allows.
fn itself(tally: &mut Tally) {
    let mut ledger = Ledger::new(0.0, 3.0);
    (0..5).for_each(|_| [1.0, 3.0].into_iter().for_each(|x| ledger.count(x)));
    let (room, ulp) = (3.0 / 2048.0, 5.0 * f32::EPSILON);
    let near = [-room - ulp, -room, 0.0, room, room + ulp].map(|by| ledger.is_near(5.0 + by));
    tally.compare(&near, &[false, true, true, true, false], || "near".into());
    let under = [-2.0 * room, -2.0 * room + ulp].map(|by| ledger.far_under(5.0 + by));
    tally.compare(&under, &[true, false], || "far under".into());
    let over = [2.0 * room, 2.0 * room + ulp].map(|by| ledger.far_over(5.0 + by));
    tally.compare(&over, &[false, true], || "far over".into());
}

pub fn compare(tally: &mut Tally, random: &mut Random) {
    itself(tally);
    let mut seen = Seen::default();
    for (a, discount) in DISCOUNTS.into_iter().enumerate() {
        for (b, (name, score)) in PATTERNS.into_iter().enumerate() {
            let z = FACTORS[if b % 2 == 0 {
                0
            } else {
                (a + b) % FACTORS.len()
            }];
            let mut list = List::new(discount, z, name, random.once_in(2));
            for k in 0..READINGS {
                if random.once_in(100) {
                    list.refuse(tally, k);
                    seen.refused += 1;
                }
                let zero = random.once_in(100);
                let x = if zero { 0.0 } else { score(random, k) };
                list.accept(tally, x, k, &mut seen);
            }
            seen.lists += 1;
        }
    }
    println!(
        "    {} lists of {READINGS}; thresholds compared {}, raised {}, skipped {}, refused {}",
        seen.lists, seen.compared, seen.raised, seen.skipped, seen.refused
    );
    println!("    the farthest threshold: {:.4} of M/2048", seen.farthest);
}
