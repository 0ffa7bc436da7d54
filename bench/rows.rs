//! The rows of the table, a part a file: the loops in plain Rust, and both sides' data.

pub mod count_min;
pub mod filters;
pub mod frequent;
pub mod hashes;
pub mod keyed;
pub mod program;
