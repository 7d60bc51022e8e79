//! The Rust under comparison: its own files, unchanged, over stand-ins for what they lean on.
//!
//! `run` links the folder with the Rust's sources to target/oracle/sources. `#[path]` names a file
//! there, which a formatter must leave alone; `include!` takes in one whose private parts the oracle
//! has to reach.

pub mod common;
pub mod rcf;
pub mod samplerplustree;
pub mod trcf;
pub mod types;

#[allow(warnings)]
#[rustfmt::skip]
#[path = "../../../target/oracle/sources/crates/rcflib/src/errors.rs"]
pub mod errors;

#[allow(warnings)]
#[rustfmt::skip]
#[path = "../../../target/oracle/sources/crates/rcflib/src/util.rs"]
mod util;

/// The functions of util.rs, which are the Rust crate's own, for the oracle.
pub mod reach {
    pub fn maxf32(a: f32, b: f32) -> f32 {
        crate::util::maxf32(a, b)
    }

    pub fn minf32(a: f32, b: f32) -> f32 {
        crate::util::minf32(a, b)
    }

    pub fn absf32(a: f32) -> f32 {
        crate::util::absf32(a)
    }
}
