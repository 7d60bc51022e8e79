//! The Rust's new states with the z factor that a new state has here.

use rcflib::trcf::basicthresholder::BasicThresholder;
use rcflib::trcf::predictorcorrector::PredictorCorrector;
use rcflib::types::Result;

/// Document 02's A5; the Rust's own is 3.
pub const Z_FACTOR: f32 = 2.5;

pub fn thresholder(discount: f64, adjust: bool) -> Result<BasicThresholder> {
    let mut made = BasicThresholder::new_adjustible(discount, adjust)?;
    made.set_z_factor(Z_FACTOR);
    Ok(made)
}

/// By a discount that is taken.
pub fn chain(discount: f64, auto_adjust: bool, base: usize) -> PredictorCorrector {
    let made = PredictorCorrector::new(discount, auto_adjust, base);
    let mut chain = made.expect("a discount below 1");
    chain.set_z_factor(Z_FACTOR);
    chain
}
