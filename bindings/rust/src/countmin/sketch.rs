//! Sketches.

use super::value::CountMinValue;
use crate::error::{must, Error};
use crate::fed::{with_item, Item};
use crate::handle::{zeros, Cell, Handle};
use crate::items::Batch;
use crate::options::{ImageOptions, DEFAULT_SEED};
use crate::shared::{sealed, Sketch};
use crate::sys;
use std::f64::consts::E;
use std::fmt;
use std::hash::Hash;
use std::marker::PhantomData;
use std::ops::AddAssign;

/// More cells than a sketch can have.
const TOO_MANY_CELLS: f64 = (1u64 << 30) as f64;

/// The most hashes that [`CountMinSketch::suggest_num_hashes`] returns.
const MOST_SUGGESTED_HASHES: f64 = 127.0;

/// A Count-Min sketch with weights in `T`.
///
/// An item is what its `Hash` feeds. So `"a"` and `String::from("a")` are one item, and `1u32` and `1u64` are
/// two. `==` compares hashes, buckets, seeds, totals and cells.
///
/// # Panics
///
/// `clone()` panics if memory runs out: [`try_clone`](Self::try_clone) returns an error. `+=` panics where
/// [`merge`](Self::merge) returns an error. Calls with an item of more than 128 bytes that is no string panic
/// if memory runs out.
#[repr(transparent)]
pub struct CountMinSketch<T: CountMinValue> {
    pub(super) handle: Handle,
    weights: PhantomData<T>,
}

impl<T: CountMinValue> CountMinSketch<T> {
    pub(crate) fn handle_mut(&mut self) -> &mut Handle {
        &mut self.handle
    }

    /// Creates an empty sketch under the seed 9001.
    ///
    /// # Errors
    ///
    /// Returns the errors of [`with_seed`](Self::with_seed).
    pub fn new(num_hashes: u8, num_buckets: u32) -> Result<Self, Error> {
        Self::with_seed(num_hashes, num_buckets, DEFAULT_SEED)
    }

    /// Creates an empty sketch of `num_hashes` rows with `num_buckets` cells each.
    ///
    /// # Errors
    ///
    /// Returns an error if there are no hashes, fewer than 3 buckets, or 2^30 cells or more, if the hash of
    /// the seed is 0, or if memory runs out.
    pub fn with_seed(num_hashes: u8, num_buckets: u32, seed: u64) -> Result<Self, Error> {
        Ok(Self::from(Handle::new_count_min(T::Cell::KIND, num_hashes, num_buckets, seed)?))
    }

    fn from(handle: Handle) -> Self {
        CountMinSketch { handle, weights: PhantomData }
    }

    /// Returns the number of hashes, which is that of rows.
    #[must_use]
    pub fn num_hashes(&self) -> u8 {
        self.handle.number(sys::DS_NUMBER_NUM_HASHES) as u8
    }

    /// Returns the number of buckets, which is that of cells in a row.
    #[must_use]
    pub fn num_buckets(&self) -> u32 {
        self.handle.number(sys::DS_NUMBER_NUM_BUCKETS) as u32
    }

    /// Returns the seed.
    #[must_use]
    pub fn seed(&self) -> u64 {
        self.handle.number(sys::DS_NUMBER_SEED)
    }

    /// Returns the sum of all weights without their signs, halved and decayed as the sketch.
    #[must_use]
    pub fn total_weight(&self) -> T {
        T::from_cell(T::Cell::from_magnitude(self.total()))
    }

    fn total(&self) -> u64 {
        self.handle.number(sys::DS_NUMBER_TOTAL_WEIGHT)
    }

    /// Returns e over the number of buckets, which is the published formula's error in parts of the total.
    #[must_use]
    pub fn relative_error(&self) -> f64 {
        E / f64::from(self.num_buckets())
    }

    /// Returns whether the total is 0.
    #[must_use]
    pub fn is_empty(&self) -> bool {
        self.total() == 0
    }

    /// Returns the buckets for an error in parts of the total, by the published formula: e over the error,
    /// rounded up, at least 3.
    ///
    /// # Errors
    ///
    /// Returns an error if the error is not finite, not above 0, or asks for 2^30 buckets or more.
    pub fn suggest_num_buckets(relative_error: f64) -> Result<u32, Error> {
        if !relative_error.is_finite() || relative_error <= 0.0 {
            return Err(Error::of_argument(sys::DS_BAD_NUM_BUCKETS));
        }
        let num_buckets = (E / relative_error).ceil();
        if num_buckets >= TOO_MANY_CELLS {
            return Err(Error::of_argument(sys::DS_TABLE_TOO_LARGE));
        }
        Ok(num_buckets.max(3.0) as u32)
    }

    /// Returns the hashes for a confidence, by the published formula: the logarithm of 1 over what is left to
    /// 1, rounded up, from 1 to 127.
    ///
    /// # Errors
    ///
    /// Returns an error if the confidence is not from 0 to 1.
    pub fn suggest_num_hashes(confidence: f64) -> Result<u8, Error> {
        if !(0.0..=1.0).contains(&confidence) {
            return Err(Error::of_argument(sys::DS_BAD_NUM_HASHES));
        }
        let num_hashes = (1.0 / (1.0 - confidence)).ln().ceil(); // infinite for a confidence of 1
        Ok(num_hashes.clamp(1.0, MOST_SUGGESTED_HASHES) as u8)
    }

    /// Adds 1 to an item's weight.
    ///
    /// # Panics
    ///
    /// Panics if the total would exceed `T::MAX`. The sketch stays as it was.
    #[inline]
    pub fn update<I: Hash>(&mut self, item: I) {
        must(self.try_update(&item))
    }

    /// Adds 1 to an item's weight.
    ///
    /// # Errors
    ///
    /// Returns an error if the total would exceed `T::MAX`.
    #[inline]
    pub fn try_update<I: Hash + ?Sized>(&mut self, item: &I) -> Result<(), Error> {
        self.try_update_with_weight(item, T::ONE)
    }

    /// Adds a weight to an item's.
    ///
    /// # Panics
    ///
    /// Panics if the total of weights without their signs would exceed `T::MAX`. The sketch stays as it was.
    #[inline]
    pub fn update_with_weight<I: Hash>(&mut self, item: I, weight: T) {
        must(self.try_update_with_weight(&item, weight))
    }

    /// Adds a weight to an item's.
    ///
    /// # Errors
    ///
    /// Returns an error if the total of weights without their signs would exceed `T::MAX`.
    #[inline]
    pub fn try_update_with_weight<I: Hash + ?Sized>(&mut self, item: &I, weight: T) -> Result<(), Error> {
        let weight = weight.to_cell();
        if T::IS_NARROW {
            self.check_room(weight.magnitude())?;
        }
        with_item(item, |item| T::Cell::update(&mut self.handle, item, weight))
    }

    /// Returns an error if the total has no room for more.
    fn check_room(&self, more: u64) -> Result<(), Error> {
        match self.total().checked_add(more) {
            Some(total) if total <= T::MAX => Ok(()),
            _ => Err(Error::of_argument(sys::DS_WEIGHT_OVERFLOW)),
        }
    }

    /// Adds 1 to the weight of each item, in order.
    ///
    /// # Errors
    ///
    /// Returns an error if offsets are wrong, or a text is not UTF-8: then nothing is added. Returns an error
    /// if the total would exceed `T::MAX`. Then the items before are added, or none with a `T` of fewer than
    /// 64 bits.
    pub fn update_all<B: Batch + ?Sized>(&mut self, items: &B) -> Result<(), Error> {
        if T::IS_NARROW {
            self.check_room(items.count()? as u64)?;
        }
        items.blocks(&mut |items, _| self.handle.update_all(items))
    }

    /// Adds a weight to each item's, in order.
    ///
    /// # Errors
    ///
    /// Returns an error if offsets are wrong, or a text is not UTF-8, unless there are as many weights as
    /// items, or if the total would exceed `T::MAX` with all weights. Then nothing is added.
    pub fn update_all_with_weights<B: Batch + ?Sized>(
        &mut self,
        items: &B,
        weights: &[T],
    ) -> Result<(), Error> {
        items.check_room(weights.len())?;
        let copied;
        let cells = match T::as_cells(weights) {
            Some(cells) => cells,
            None => {
                copied = cells_of(weights)?;
                &copied
            }
        };
        if T::IS_NARROW || !items.is_whole() {
            let sum = cells.iter().try_fold(0u64, |sum, cell| sum.checked_add(cell.magnitude()));
            self.check_room(sum.ok_or_else(|| Error::of_argument(sys::DS_WEIGHT_OVERFLOW))?)?;
        }
        items.blocks(&mut |items, part| T::Cell::update_all(&mut self.handle, items, part.of(cells)))
    }

    /// Returns the estimate of an item's weight: the minimum of its cells.
    ///
    /// With no weight below 0 it is at least the item's own weight, halved and decayed as often as the sketch
    /// and rounded down each time, and at most the total.
    #[inline]
    #[must_use]
    pub fn estimate<I: Hash>(&self, item: I) -> T {
        must(self.try_estimate(&item))
    }

    /// Returns the estimate of an item's weight, or an error if a long item has no memory.
    #[inline]
    pub fn try_estimate<I: Hash + ?Sized>(&self, item: &I) -> Result<T, Error> {
        with_item(item, |item| T::Cell::estimate(&self.handle, item)).map(T::from_cell)
    }

    /// Returns the estimate of each item's weight.
    ///
    /// # Errors
    ///
    /// Returns an error if offsets are wrong, or a text is not UTF-8, or memory runs out.
    pub fn estimate_all<B: Batch + ?Sized>(&self, items: &B) -> Result<Vec<T>, Error> {
        let mut cells: Vec<T::Cell> = zeros(items.count()?)?;
        items
            .blocks(&mut |items, part| T::Cell::estimate_all(&self.handle, items, part.of_mut(&mut cells)))?;
        T::from_cells(cells)
    }

    /// Returns the estimate. It is no lower bound: an item's weight may be less.
    #[must_use]
    pub fn lower_bound<I: Hash>(&self, item: I) -> T {
        self.estimate(item)
    }

    /// Returns the estimate plus a margin, or `T::MAX` if this exceeds it. The margin is e times the total
    /// over the buckets, rounded down.
    #[must_use]
    pub fn upper_bound<I: Hash>(&self, item: I) -> T {
        let bound = |item: Item<'_>| T::Cell::upper_bound(&self.handle, item);
        T::from_cell(must(with_item(&item, bound)))
    }

    /// Removes all items and weights. Hashes, buckets and seed stay. Does not allocate.
    pub fn reset(&mut self) {
        must(self.handle.reset())
    }

    /// Adds the cells and the total of another sketch.
    ///
    /// # Errors
    ///
    /// Returns an error if hashes, buckets or seeds differ, or if the totals together exceed `T::MAX`.
    pub fn merge(&mut self, other: &CountMinSketch<T>) -> Result<(), Error> {
        if T::IS_NARROW && self.has_shape_of(other) {
            self.check_room(other.total())?;
        }
        self.handle.merge(&other.handle)
    }

    /// Adds the cells and totals of many sketches.
    ///
    /// # Errors
    ///
    /// Returns an error if hashes, buckets or seeds of one differ, if the totals together exceed `T::MAX`, or
    /// if memory runs out. Then nothing is added.
    pub fn merge_all(&mut self, others: &[CountMinSketch<T>]) -> Result<(), Error> {
        if T::IS_NARROW && others.iter().all(|other| self.has_shape_of(other)) {
            self.check_room(others.iter().fold(0u64, |sum, other| sum.saturating_add(other.total())))?;
        }
        self.handle.merge_all(others)
    }

    fn has_shape_of(&self, other: &Self) -> bool {
        (self.num_hashes(), self.num_buckets(), self.seed())
            == (other.num_hashes(), other.num_buckets(), other.seed())
    }

    /// Returns the image. It is without the seed.
    ///
    /// # Panics
    ///
    /// Panics if memory runs out.
    #[must_use]
    pub fn serialize(&self) -> Vec<u8> {
        must(self.handle.serialize())
    }

    /// Returns the image, or an error if memory runs out.
    pub fn try_serialize(&self) -> Result<Vec<u8>, Error> {
        self.handle.serialize()
    }

    /// Returns the number of bytes of the image.
    #[must_use]
    pub fn serialized_size(&self) -> usize {
        must(self.handle.serialized_size())
    }

    /// Writes the image to the front of a buffer, and returns its number of bytes.
    ///
    /// # Errors
    ///
    /// Returns an error if the buffer is shorter than the image.
    pub fn serialize_into(&self, out: &mut [u8]) -> Result<usize, Error> {
        self.handle.serialize_into(out)
    }

    /// Returns the sketch of an image that was written under the seed 9001.
    ///
    /// # Errors
    ///
    /// Returns the error of the image's first failed check, or an error if memory runs out.
    pub fn deserialize(bytes: &[u8]) -> Result<Self, Error> {
        Self::deserialize_with_options(bytes, &ImageOptions::default())
    }

    /// Returns the sketch of an image that was written under a seed.
    ///
    /// # Errors
    ///
    /// Returns the errors of [`deserialize`](Self::deserialize).
    pub fn deserialize_with_seed(bytes: &[u8], seed: u64) -> Result<Self, Error> {
        Self::deserialize_with_options(bytes, &ImageOptions::default().seed(seed))
    }

    /// Returns the sketch of an untrusted image, under options: a seed, and a limit of its bytes. An image of
    /// 16 bytes can state a sketch of 8 GB.
    ///
    /// # Errors
    ///
    /// Returns the errors of [`deserialize`](Self::deserialize), and an error if the sketch takes more bytes
    /// than the limit.
    pub fn deserialize_with_options(bytes: &[u8], options: &ImageOptions) -> Result<Self, Error> {
        Ok(Self::deserialize_prefix(bytes, options)?.0)
    }

    /// Returns the sketch of the image at the front of bytes, and the number of bytes that the image takes.
    ///
    /// # Errors
    ///
    /// Returns the errors of [`deserialize_with_options`](Self::deserialize_with_options).
    pub fn deserialize_prefix(bytes: &[u8], options: &ImageOptions) -> Result<(Self, usize), Error> {
        let (handle, used) = Handle::read(T::Cell::KIND, bytes, options)?;
        let sketch = Self::from(handle);
        if T::IS_NARROW && sketch.total() > T::MAX {
            return Err(Error::of_data(sys::DS_VALUE_OUT_OF_RANGE));
        }
        Ok((sketch, used))
    }

    /// Returns a copy, or an error if memory runs out.
    pub fn try_clone(&self) -> Result<Self, Error> {
        self.handle.try_clone().map(Self::from)
    }

    /// Returns the number of bytes of the cells and the seeds of rows.
    #[must_use]
    pub fn estimated_size(&self) -> usize {
        self.handle.memory_bytes()
    }
}

/// Returns weights as those of cells.
fn cells_of<T: CountMinValue>(weights: &[T]) -> Result<Vec<T::Cell>, Error> {
    let mut cells = Vec::new();
    cells.try_reserve_exact(weights.len()).map_err(Error::no_memory)?;
    cells.extend(weights.iter().map(|weight| weight.to_cell()));
    Ok(cells)
}

impl<T: CountMinValue> sealed::Owner for CountMinSketch<T> {
    fn from_handle(handle: Handle) -> Self {
        Self::from(handle)
    }

    fn handle(&self) -> &Handle {
        &self.handle
    }

    fn handle_mut(&mut self) -> &mut Handle {
        &mut self.handle
    }
}

impl<T: CountMinValue + Send> Sketch for CountMinSketch<T> {}

impl<T: CountMinValue> Clone for CountMinSketch<T> {
    fn clone(&self) -> Self {
        must(self.try_clone())
    }
}

impl<T: CountMinValue> PartialEq for CountMinSketch<T> {
    fn eq(&self, other: &Self) -> bool {
        must(self.handle.equal(&other.handle))
    }
}

impl<T: CountMinValue> Eq for CountMinSketch<T> {}

impl<T: CountMinValue> fmt::Debug for CountMinSketch<T> {
    fn fmt(&self, formatter: &mut fmt::Formatter<'_>) -> fmt::Result {
        formatter
            .debug_struct("CountMinSketch")
            .field("num_hashes", &self.num_hashes())
            .field("num_buckets", &self.num_buckets())
            .field("seed", &self.seed())
            .field("total_weight", &self.total())
            .finish()
    }
}

impl<T: CountMinValue, I: Hash> Extend<I> for CountMinSketch<T> {
    fn extend<A: IntoIterator<Item = I>>(&mut self, items: A) {
        for item in items {
            self.update(item);
        }
    }
}

impl<T: CountMinValue> AddAssign<&CountMinSketch<T>> for CountMinSketch<T> {
    fn add_assign(&mut self, other: &CountMinSketch<T>) {
        must(self.merge(other))
    }
}
