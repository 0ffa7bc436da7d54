//! Frequent items: the items of the largest weights, with bounds that enclose each true weight.
//!
//! ```
//! use datasketches_rattle::frequencies::{ErrorType, FrequentItemsSketch};
//! use datasketches_rattle::items::words;
//!
//! let mut heavy = FrequentItemsSketch::<String>::new(64)?;
//! heavy.update_all(&words("to be or not to be to"))?;
//! let rows = heavy.frequent_items(ErrorType::NoFalsePositives);
//! assert_eq!((rows[0].item().as_str(), rows[0].estimate()), ("to", 3));
//! # Ok::<(), datasketches_rattle::error::Error>(())
//! ```
//!
//! The lower bound of an item is at most its true weight, and the upper bound at least. They differ by
//! [`maximum_error`](FrequentItemsSketch::maximum_error). With at most three quarters of the maximum size in
//! distinct items it is 0. With the sample size that [`new`](FrequentItemsSketch::new) chooses, it is at most
//! 8/3 of the total over the maximum size up to 1024, and at most the total over 512 above. These are
//! theorems of the library.

mod row;
mod sketch;
mod value;

pub use row::{ErrorType, ItemBounds, Row};
pub use sketch::FrequentItemsSketch;
pub use value::FrequentItemValue;
