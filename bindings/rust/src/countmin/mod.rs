//! Count-Min sketches: estimates of the weights of items.
//!
//! ```
//! use datasketches_rattle::countmin::CountMinSketch;
//! use datasketches_rattle::items::words;
//!
//! let mut counts = CountMinSketch::<u64>::new(4, 2719)?;
//! counts.update_all(&words("to be or not to be"))?;
//! counts.update_with_weight("be", 5);
//! assert_eq!(counts.estimate("be"), 7);
//! # Ok::<(), datasketches_rattle::error::Error>(())
//! ```
//!
//! With no weight below 0, an estimate is at least the item's own weight and at most the total. How far it
//! exceeds the weight depends on the hashes, and is not proved.

mod sketch;
mod unsigned;
mod value;
mod view;

pub use sketch::CountMinSketch;
pub use value::{CountMinValue, UnsignedCountMinValue};
pub use view::CountMinView;
