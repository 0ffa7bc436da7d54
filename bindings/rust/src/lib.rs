//! Bloom filters, Count-Min sketches and frequent items, over the C library of datasketches for Rattle, which
//! is proved to meet its contracts.
//!
//! The paths, names and signatures are those of the published crate `datasketches`, and so are the bytes of
//! images. A program for that crate is compiled with this one by a line of its `Cargo.toml`:
//!
//! ```toml
//! datasketches = { package = "datasketches-rattle", path = ".." }
//! ```
//!
//! ```
//! use datasketches_rattle::bloom::BloomFilterBuilder;
//! use datasketches_rattle::countmin::CountMinSketch;
//! use datasketches_rattle::frequencies::{ErrorType, FrequentItemsSketch};
//!
//! let mut seen = BloomFilterBuilder::with_accuracy(1000, 0.01).build()?;
//! seen.insert("apple");
//! assert!(seen.contains(&"apple"));
//!
//! let mut counts = CountMinSketch::<u64>::new(4, 2719)?;
//! counts.update_with_weight("apple", 3);
//! assert_eq!(counts.estimate("apple"), 3);
//!
//! let mut heavy = FrequentItemsSketch::<String>::new(64)?;
//! heavy.update("apple".to_string());
//! assert_eq!(heavy.frequent_items(ErrorType::NoFalsePositives)[0].item(), "apple");
//! # Ok::<(), datasketches_rattle::error::Error>(())
//! ```
//!
//! # Errors and panics
//!
//! Calls that have the published crate's signature panic where that crate panics or aborts: if a total weight
//! overflows, or memory runs out. Each has a twin that returns an [`Error`](error::Error) instead, as
//! `try_update` of `update`. An error leaves the sketch as it was, unless the call's page says otherwise.
//!
//! # Threads
//!
//! A sketch may move to another thread, and one thread at a time uses it. [`Shared`] is for many threads that
//! read one sketch at once. Two threads cannot use one sketch:
//!
//! ```compile_fail,E0277
//! let filter = datasketches_rattle::bloom::BloomFilterBuilder::with_size(64, 1).build().unwrap();
//! std::thread::scope(|scope| {
//!     scope.spawn(|| filter.contains(&1));
//!     filter.contains(&2);
//! });
//! ```
//!
//! ```compile_fail,E0277
//! let counts = datasketches_rattle::countmin::CountMinSketch::<u64>::new(1, 3).unwrap();
//! let counts = std::sync::Arc::new(counts);
//! std::thread::spawn(move || counts.estimate(1));
//! ```
#![deny(missing_docs)]
#![deny(unsafe_op_in_unsafe_fn)]

#[cfg(not(all(target_endian = "little", target_pointer_width = "64")))]
compile_error!("the C library of datasketches is for little-endian targets of 64 bits");

pub mod bloom;
pub mod codec;
pub mod countmin;
pub mod error;
mod fed;
pub mod fields;
pub mod frequencies;
mod handle;
pub mod items;
mod options;
mod shared;
#[allow(missing_docs)]
mod sys;

pub use options::{ImageOptions, Key, DEFAULT_SEED};
pub use shared::{Reader, Shared, Sketch};

/// Returns the version of the C library, such as `"0.3.0"`.
#[must_use]
pub fn version() -> &'static str {
    handle::version()
}

/// Returns SipHash-1-3 of bytes under a key.
///
/// A caller who chooses the items of a filter or a Count-Min sketch can choose ones that collide. Insert this
/// hash in place of such an item. Without the key, no way is known to choose items that collide. Sketches
/// that are merged need the same key.
#[inline]
#[must_use]
pub fn keyed_hash(bytes: &[u8], key: Key) -> u64 {
    handle::keyed_hash(bytes, key)
}

/// The examples of the page.
#[cfg(doctest)]
#[doc = include_str!("../README.md")]
pub struct Page;
