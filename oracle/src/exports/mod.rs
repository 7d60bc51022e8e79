//! Cabinet exports: the plain Rust program that reads one, random exports, and the kinds that they
//! are of.

pub mod kinds;
pub mod making;
pub mod plain;
