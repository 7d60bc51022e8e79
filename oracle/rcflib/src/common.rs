//! The Rust's own files of this folder.

#[allow(warnings)]
#[rustfmt::skip]
#[path = "../../../target/oracle/sources/crates/rcflib/src/common/descriptor.rs"]
pub mod descriptor;

#[allow(warnings)]
#[rustfmt::skip]
#[path = "../../../target/oracle/sources/crates/rcflib/src/common/deviation.rs"]
pub mod deviation;

#[allow(warnings)]
#[rustfmt::skip]
#[path = "../../../target/oracle/sources/crates/rcflib/src/common/divector.rs"]
pub mod divector;

#[allow(warnings)]
#[rustfmt::skip]
#[path = "../../../target/oracle/sources/crates/rcflib/src/common/rangevector.rs"]
pub mod rangevector;
