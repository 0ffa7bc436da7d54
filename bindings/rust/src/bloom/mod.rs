//! Bloom filters: sets of items, with false positives and without false negatives.
//!
//! ```
//! use datasketches_rattle::bloom::BloomFilterBuilder;
//!
//! let mut filter = BloomFilterBuilder::with_accuracy(1000, 0.01).seed(7).build()?;
//! filter.insert("apple");
//! filter.insert_all(&[1u64, 2, 3])?;
//! assert!(filter.contains(&"apple"));
//! assert_eq!(filter.contains_all(&[2u64, 3])?, [true, true]);
//! # Ok::<(), datasketches_rattle::error::Error>(())
//! ```
//!
//! An inserted item is always contained, unless a later intersection, difference or reset removed some of its
//! positions. False-positive rates hold under ideal hashes, and are not proved.

mod builder;
mod filter;
mod view;

pub use builder::BloomFilterBuilder;
pub use filter::BloomFilter;
pub use view::BloomFilterView;
