//! The score watch: the plain Rust program, inputs for ours, and the kinds that they are of.

pub mod kinds;
pub mod making;
pub mod plain;
