//! The Rust's `Result`, whose own file takes in the forest's number types as well.

use crate::errors::RCFError;

pub type Result<T> = std::result::Result<T, RCFError>;
