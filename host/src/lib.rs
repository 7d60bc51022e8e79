//! A hospital's withdrawal watch: which drawers to recount.
//!
//! A random cut forest scores each withdrawal from the dispensing cabinets; this crate turns the
//! scores of one drawer into verdicts. The decision itself is made by a library that is written in
//! Rattle and proved, the forest stays with the caller. There are two ways to lend its results, each
//! for one drawer and for up to thirty of a site, whose states are in one block of bytes:
//!
//! - A [`Drawer`], and a [`Site`] of several, asks the forest by itself, through the trait
//!   [`Forest`], keeps what the next withdrawal needs and can be stored over a restart. Its page has
//!   an example, and `examples/thousand.rs` is a whole program.
//! - A [`Watch`], and a [`Pool`] of several, judges a [`Reading`] that the caller has filled in:
//!
//! ```
//! use withdrawal_watch::{LentAttribution, Reading, Verdict, Watch};
//!
//! let mut watch = Watch::new(0.01, false, 1)?;
//! let even = LentAttribution { high: &[0.25; 4], low: &[0.0; 4] };
//! let reading = Reading {
//!     shingle_size: 4, base_dimension: 1, values_seen: 1, score: 1.25,
//!     rcf_point: &[2.0, 1.0, 2.0, 2.0], median: &[2.0; 4],
//!     scale: &[1.0], shift: &[0.0], difference_deviations: &[0.5],
//!     attribution: even, expected_attribution: even, ..Reading::default()
//! };
//! assert_eq!(watch.judge(&reading)?, Verdict::Quiet { threshold: 1.5 });
//! # Ok::<(), withdrawal_watch::Refused>(())
//! ```
//!
//! A call that cannot be carried out says why ([`Refused`], [`NotJudged`]) and changes nothing. No
//! input panics.

#![deny(missing_docs)]
#![deny(unsafe_code)]
#![deny(unsafe_op_in_unsafe_fn)]

mod asking;
mod bytes;
#[allow(unsafe_code)]
mod calls;
mod culprit;
#[allow(unsafe_code)]
mod declarations;
mod drawer;
mod forest;
mod kept;
mod points;
mod pool;
mod reading;
mod records;
mod refusal;
mod room;
mod site;
mod state;
mod steps;
mod store;
mod types;
mod verdict;
mod watch;
mod withdrawal;
mod words;

pub use drawer::Drawer;
pub use forest::{AskedOfForest, Forest};
pub use kept::Anomaly;
pub use points::{
    apply_basic_corrector, expected_point, likely_missing_indices, newest_row, MissingIndices,
};
pub use pool::Pool;
pub use reading::{LastAnomaly, LastDescriptor, LentAttribution, Reading};
pub use records::{POOL_BYTES, POOL_RECORDS};
pub use refusal::{Refusal, Refused};
pub use site::Site;
pub use state::STATE_BYTES;
pub use store::{StoreError, STORE_VERSION};
pub use types::{CorrectionMode, ScoringStrategy, TransformMethod};
pub use verdict::{Attribution, Verdict};
pub use watch::Watch;
pub use withdrawal::{NotJudged, Withdrawal};
