//! Sketches in the bytes of an image.

use crate::error::{must, Error};
use crate::fed::{with_item, Item};
use crate::handle::{Cell, Image};
use std::fmt;
use std::hash::Hash;
use std::marker::PhantomData;

/// A Count-Min sketch in the bytes of its image, such as a mapped file, with weights in `u64` or `i64`. It
/// neither copies them nor allocates, and many threads may use it.
///
/// ```
/// use datasketches_rattle::countmin::{CountMinSketch, CountMinView};
///
/// let mut counts = CountMinSketch::<i64>::new(4, 64)?;
/// counts.update_with_weight("apple", 3);
/// let image = counts.serialize();
/// assert_eq!(CountMinView::<i64>::new(&image)?.estimate("apple"), 3);
/// # Ok::<(), datasketches_rattle::error::Error>(())
/// ```
///
/// Each call hashes a number for each row first, so many estimates are faster from a sketch that was read.
#[derive(Clone, Copy)]
pub struct CountMinView<'a, T> {
    image: Image<'a>,
    seed: u64,
    weights: PhantomData<T>,
}

impl<'a, T: Cell> CountMinView<'a, T> {
    /// Creates a view of an image that was written under the seed 9001, in constant time.
    ///
    /// # Errors
    ///
    /// Returns the errors of [`with_seed`](Self::with_seed).
    pub fn new(image: &'a [u8]) -> Result<Self, Error> {
        Self::with_seed(image, crate::DEFAULT_SEED)
    }

    /// Creates a view of an image that was written under a seed, in constant time.
    ///
    /// # Errors
    ///
    /// Returns the error of the image's first failed check, as `CountMinSketch::deserialize` does. Cells are
    /// not checked: one that reading rejects counts as the nearest that it accepts.
    pub fn with_seed(image: &'a [u8], seed: u64) -> Result<Self, Error> {
        let view = CountMinView { image: Image::new(image), seed, weights: PhantomData };
        view.image.estimate::<T>(seed, Item::Number(0))?;
        Ok(view)
    }

    /// Returns the bytes of the image, and of what follows it.
    #[must_use]
    pub fn as_bytes(&self) -> &'a [u8] {
        self.image.bytes()
    }

    /// Returns the estimate of an item's weight.
    #[inline]
    #[must_use]
    pub fn estimate<I: Hash>(&self, item: I) -> T {
        must(with_item(&item, |item| self.image.estimate(self.seed, item)))
    }
}

impl<T> fmt::Debug for CountMinView<'_, T> {
    fn fmt(&self, formatter: &mut fmt::Formatter<'_>) -> fmt::Result {
        formatter.debug_struct("CountMinView").field("bytes", &self.image.bytes().len()).finish()
    }
}
