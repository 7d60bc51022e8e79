//! Times ours against the Rust, in one run and on the same inputs.

pub mod export_watch;
mod judging;
mod numbers;
mod peer;
mod pool;
mod scans;
pub mod score_watch;
mod timing;
pub mod training_load;

use crate::random::Random;

pub fn run(random: &mut Random) {
    timing::heading();
    numbers::run(random);
    judging::run(random);
    pool::run(random);
    scans::run(random);
    score_watch::run(random).expect("both score watches run");
    export_watch::run(random).expect("both export watches run");
    training_load::run(random).expect("the training loads run");
}
