//! The expectation monitor once more, in plain Rust.

pub mod plain;
