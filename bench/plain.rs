//! Plain Rust that is timed for comparison with the proved crates. It does as the published crate `datasketches` does, and was
//! written for this purpose.
#![allow(dead_code)]

pub mod count_min;
pub mod filter;
pub mod frequent;
pub mod image;
pub mod murmur3;
pub mod xxhash;
