//! The Rust's own files of this folder.

#[allow(warnings)]
pub mod basicthresholder;

#[allow(warnings)]
pub mod predictorcorrector;

#[allow(warnings)]
#[rustfmt::skip]
#[path = "../../../target/oracle/sources/crates/rcflib/src/trcf/types.rs"]
pub mod types;
