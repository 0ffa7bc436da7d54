//! Sketches.

use super::{ErrorType, FrequentItemValue, ItemBounds, Row};
use crate::error::{must, Error};
use crate::fed::with_item;
use crate::handle::{self, zeros, Handle};
use crate::items::Batch;
use crate::options::{ImageOptions, Key};
use crate::shared::{sealed, Sketch};
use crate::sys;
use std::borrow::Borrow;
use std::fmt;
use std::hash::Hash;
use std::marker::PhantomData;
use std::ops::AddAssign;

/// The published error in parts of the total, times the maximum size.
const EPSILON_FACTOR: f64 = 3.5;

/// Frequent items of type `T`: `String`, `i64` or `u64`.
///
/// Each sketch's table hashes under a key, which is drawn from the system unless it is given: see
/// [`with_sizes`](Self::with_sizes). Runs under different keys may purge different counters, within the same
/// bounds.
///
/// # Panics
///
/// `clone()` panics if memory runs out: [`try_clone`](Self::try_clone) returns an error. `+=` panics as
/// [`merge`](Self::merge) does.
#[repr(transparent)]
pub struct FrequentItemsSketch<T: FrequentItemValue> {
    handle: Handle,
    items: PhantomData<T>,
}

impl<T: FrequentItemValue> FrequentItemsSketch<T> {
    pub(crate) fn handle_mut(&mut self) -> &mut Handle {
        &mut self.handle
    }

    /// Creates an empty sketch, whose table grows to at most `max_map_size` slots. Three quarters of them
    /// have counters.
    ///
    /// # Errors
    ///
    /// Returns an error if the size is no power of two from 8 to 2^30, if the system has no random bytes for
    /// a key, or if memory runs out.
    pub fn new(max_map_size: usize) -> Result<Self, Error> {
        Self::with_key_option(max_map_size, None)
    }

    /// Creates an empty sketch under a key, so that a run can be repeated.
    ///
    /// # Errors
    ///
    /// Returns an error if the size is no power of two from 8 to 2^30, or if memory runs out.
    pub fn with_key(max_map_size: usize, key: Key) -> Result<Self, Error> {
        Self::with_key_option(max_map_size, Some(key))
    }

    fn with_key_option(max_map_size: usize, key: Option<Key>) -> Result<Self, Error> {
        // The largest sample, which has the strongest guarantee. Of a size that is too small it is no sample
        // size.
        let sample_size = (max_map_size / 4 * 3).clamp(2, 1024);
        Self::with_sizes(max_map_size, sample_size, key)
    }

    /// Creates an empty sketch whose purges sample `sample_size` counters, under a key or a drawn one.
    ///
    /// # Errors
    ///
    /// Returns the errors of [`new`](Self::new), and an error if the sample size is not even, or not from 2
    /// to three quarters of `max_map_size`, at most 1024.
    pub fn with_sizes(max_map_size: usize, sample_size: usize, key: Option<Key>) -> Result<Self, Error> {
        Ok(Self::from(Handle::new_frequent_items(T::KIND, max_map_size, sample_size, key)?))
    }

    fn from(handle: Handle) -> Self {
        FrequentItemsSketch { handle, items: PhantomData }
    }

    /// Returns whether the total weight is 0.
    #[must_use]
    pub fn is_empty(&self) -> bool {
        self.total_weight() == 0
    }

    /// Returns the number of items that have a counter.
    #[must_use]
    pub fn num_active_items(&self) -> usize {
        self.handle.number(sys::DS_NUMBER_NUM_ACTIVE_ITEMS) as usize
    }

    /// Returns the sum of all weights.
    #[must_use]
    pub fn total_weight(&self) -> u64 {
        self.handle.number(sys::DS_NUMBER_TOTAL_WEIGHT)
    }

    /// Returns the estimate of an item's weight: the upper bound if it has a counter, and 0 otherwise.
    #[inline]
    #[must_use]
    pub fn estimate<Q>(&self, item: &Q) -> u64
    where
        T: Borrow<Q>,
        Q: Eq + Hash + ?Sized,
    {
        self.bounds(item).estimate
    }

    /// Returns the lower bound of an item's weight, which is 0 without a counter.
    #[inline]
    #[must_use]
    pub fn lower_bound<Q>(&self, item: &Q) -> u64
    where
        T: Borrow<Q>,
        Q: Eq + Hash + ?Sized,
    {
        self.bounds(item).lower_bound
    }

    /// Returns the upper bound of an item's weight, which is the maximum error without a counter.
    #[inline]
    #[must_use]
    pub fn upper_bound<Q>(&self, item: &Q) -> u64
    where
        T: Borrow<Q>,
        Q: Eq + Hash + ?Sized,
    {
        self.bounds(item).upper_bound
    }

    /// Returns the bounds and the estimate of an item's weight.
    #[inline]
    #[must_use]
    pub fn bounds<Q>(&self, item: &Q) -> ItemBounds
    where
        T: Borrow<Q>,
        Q: Eq + Hash + ?Sized,
    {
        match must(with_item(item, |item| self.handle.bounds::<T>(item).transpose())) {
            Some(bounds) => bounds,
            None => self.bounds_of_absent(),
        }
    }

    /// Returns the bounds of what is no item of the sketch: its `Hash` feeds what none feeds.
    #[cold]
    fn bounds_of_absent(&self) -> ItemBounds {
        ItemBounds { lower_bound: 0, estimate: 0, upper_bound: self.maximum_error() }
    }

    /// Returns the bounds and the estimate of each item's weight.
    ///
    /// # Errors
    ///
    /// Returns an error if offsets are wrong, or a text is not UTF-8, or memory runs out.
    pub fn bounds_all<B: Batch<Item = T> + ?Sized>(&self, items: &B) -> Result<Vec<ItemBounds>, Error> {
        let mut bounds = zeros(items.count()?)?;
        items.blocks(&mut |items, part| self.handle.bounds_all(items, part.of_mut(&mut bounds)))?;
        Ok(bounds)
    }

    /// Returns the upper bound less the lower bound, of each item.
    #[must_use]
    pub fn maximum_error(&self) -> u64 {
        self.handle.number(sys::DS_NUMBER_MAXIMUM_ERROR)
    }

    /// Returns 3.5 over the maximum size: the error in parts of the total that the published crate states.
    /// What is proved is in the [module's head](super).
    #[must_use]
    pub fn epsilon(&self) -> f64 {
        EPSILON_FACTOR / self.max_map_size() as f64
    }

    /// Returns 3.5 over a maximum size: see [`epsilon`](Self::epsilon).
    ///
    /// # Errors
    ///
    /// Returns an error if the size is no power of two from 8 to 2^30.
    pub fn epsilon_for_max_map_size(max_map_size: usize) -> Result<f64, Error> {
        let code = match max_map_size {
            _ if !max_map_size.is_power_of_two() => sys::DS_MAP_SIZE_NOT_POWER_OF_TWO,
            0..=7 => sys::DS_MAP_SIZE_TOO_SMALL,
            _ if max_map_size > 1 << 30 => sys::DS_MAP_SIZE_TOO_LARGE,
            _ => return Ok(EPSILON_FACTOR / max_map_size as f64),
        };
        Err(Error::of_argument(code))
    }

    /// Returns [`epsilon_for_max_map_size`](Self::epsilon_for_max_map_size) times a total weight.
    ///
    /// # Errors
    ///
    /// Returns an error if the size is no power of two from 8 to 2^30.
    pub fn apriori_error(max_map_size: usize, estimated_total_weight: u64) -> Result<f64, Error> {
        Ok(Self::epsilon_for_max_map_size(max_map_size)? * estimated_total_weight as f64)
    }

    /// Returns the smallest maximum size that guarantees an error of at most the total over `parts`, for
    /// every stream.
    ///
    /// # Errors
    ///
    /// Returns an error above 512 parts.
    pub fn suggest_max_map_size(parts: usize) -> Result<usize, Error> {
        handle::suggest_max_map_size(parts)
    }

    /// Returns the most counters at the maximum size: three quarters of it.
    #[must_use]
    pub fn maximum_map_capacity(&self) -> usize {
        self.handle.number(sys::DS_NUMBER_MAXIMUM_MAP_CAPACITY) as usize
    }

    /// Returns the most counters before the table grows or is purged.
    #[must_use]
    pub fn current_map_capacity(&self) -> usize {
        self.handle.number(sys::DS_NUMBER_CURRENT_MAP_CAPACITY) as usize
    }

    /// Returns the maximum size of the table, in slots.
    #[must_use]
    pub fn max_map_size(&self) -> usize {
        self.handle.number(sys::DS_NUMBER_MAX_MAP_SIZE) as usize
    }

    /// Returns the binary logarithm of the maximum size.
    #[must_use]
    pub fn lg_max_map_size(&self) -> u8 {
        self.max_map_size().trailing_zeros() as u8
    }

    /// Returns the binary logarithm of the current size.
    #[must_use]
    pub fn lg_cur_map_size(&self) -> u8 {
        (self.current_map_capacity() / 3 * 4).trailing_zeros() as u8
    }

    /// Returns the number of counters that a purge samples.
    #[must_use]
    pub fn sample_size(&self) -> usize {
        self.handle.number(sys::DS_NUMBER_SAMPLE_SIZE) as usize
    }

    /// Sets the number of counters that later purges sample. A sketch that was read from an image has the
    /// largest one.
    ///
    /// # Errors
    ///
    /// Returns an error if it is not even, or not from 2 to three quarters of the maximum size, at most 1024.
    pub fn set_sample_size(&mut self, sample_size: usize) -> Result<(), Error> {
        self.handle.set_sample_size(sample_size)
    }

    /// Returns the number of bytes of the table, and of the strings in it.
    #[must_use]
    pub fn estimated_size(&self) -> usize {
        self.handle.memory_bytes()
    }

    /// Adds 1 to an item's weight.
    ///
    /// # Panics
    ///
    /// Panics if the total would exceed `u64::MAX`, or memory runs out. The sketch stays as it was.
    #[inline]
    pub fn update(&mut self, item: T) {
        self.update_with_count(item, 1)
    }

    /// Adds a weight to an item's.
    ///
    /// # Panics
    ///
    /// Panics if the total would exceed `u64::MAX`, or memory runs out. The sketch stays as it was.
    #[inline]
    pub fn update_with_count(&mut self, item: T, count: u64) {
        must(self.try_update_with_count(&item, count))
    }

    /// Adds 1 to a borrowed item's weight. An item that has a counter is not copied.
    ///
    /// # Panics
    ///
    /// Panics if the total would exceed `u64::MAX`, or memory runs out. The sketch stays as it was.
    #[inline]
    pub fn update_ref<Q>(&mut self, item: &Q)
    where
        T: Borrow<Q>,
        Q: Eq + Hash + ToOwned<Owned = T> + ?Sized,
    {
        self.update_with_count_ref(item, 1)
    }

    /// Adds a weight to a borrowed item's. An item that has a counter is not copied.
    ///
    /// # Panics
    ///
    /// Panics if the total would exceed `u64::MAX`, or memory runs out. The sketch stays as it was.
    #[inline]
    pub fn update_with_count_ref<Q>(&mut self, item: &Q, count: u64)
    where
        T: Borrow<Q>,
        Q: Eq + Hash + ToOwned<Owned = T> + ?Sized,
    {
        must(self.try_update_with_count(item, count))
    }

    /// Adds 1 to a borrowed item's weight.
    ///
    /// # Errors
    ///
    /// Returns an error if the total would exceed `u64::MAX`, or memory runs out.
    #[inline]
    pub fn try_update<Q>(&mut self, item: &Q) -> Result<(), Error>
    where
        T: Borrow<Q>,
        Q: Eq + Hash + ToOwned<Owned = T> + ?Sized,
    {
        self.try_update_with_count(item, 1)
    }

    /// Adds a weight to a borrowed item's.
    ///
    /// # Errors
    ///
    /// Returns an error if the total would exceed `u64::MAX`, or memory runs out.
    #[inline]
    pub fn try_update_with_count<Q>(&mut self, item: &Q, count: u64) -> Result<(), Error>
    where
        T: Borrow<Q>,
        Q: Eq + Hash + ToOwned<Owned = T> + ?Sized,
    {
        if self.add(item, count)?.is_none() {
            self.add_owned(&item.to_owned(), count)?;
        }
        Ok(())
    }

    /// Adds a weight to the item that feeds a hasher the same. Returns nothing if there is none.
    #[inline]
    fn add<Q: Hash + ?Sized>(&mut self, item: &Q, count: u64) -> Result<Option<()>, Error> {
        with_item(item, |item| self.handle.update::<T>(item, count).transpose())
    }

    /// Adds a weight to the item of a borrowed form whose `Hash` is not the item's.
    #[cold]
    fn add_owned(&mut self, item: &T, count: u64) -> Result<(), Error> {
        self.add(item, count)
            .map(|added| added.unwrap_or_else(|| unreachable!("an item feeds what it feeds")))
    }

    /// Adds 1 to the weight of each item, in order.
    ///
    /// # Errors
    ///
    /// Returns an error if offsets are wrong, or a text is not UTF-8: then nothing is added. Returns an error
    /// if the total would exceed `u64::MAX`, or memory runs out: then the items before are added.
    pub fn update_all<B: Batch<Item = T> + ?Sized>(&mut self, items: &B) -> Result<(), Error> {
        items.blocks(&mut |items, _| self.handle.update_all(items))
    }

    /// Adds a weight to each item's, in order.
    ///
    /// # Errors
    ///
    /// Returns an error if offsets are wrong, or a text is not UTF-8, unless there are as many counts as
    /// items, or if the total would exceed `u64::MAX` with all counts. Then nothing is added. Returns an
    /// error if memory runs out: then the items before are added.
    pub fn update_all_with_counts<B: Batch<Item = T> + ?Sized>(
        &mut self,
        items: &B,
        counts: &[u64],
    ) -> Result<(), Error> {
        items.check_room(counts.len())?;
        if !items.is_whole() {
            let total = counts.iter().try_fold(self.total_weight(), |total, count| total.checked_add(*count));
            total.ok_or_else(|| Error::of_argument(sys::DS_WEIGHT_OVERFLOW))?;
        }
        items.blocks(&mut |items, part| self.handle.add_counts(items, part.of(counts)))
    }

    /// Adds the weights of another sketch, whose error adds to this one's. The sizes stay.
    ///
    /// # Panics
    ///
    /// Panics if the totals together exceed `u64::MAX`, or memory runs out. The sketch stays as it was.
    pub fn merge(&mut self, other: &Self) {
        must(self.try_merge(other))
    }

    /// Adds the weights of another sketch, whose error adds to this one's. The sizes stay.
    ///
    /// # Errors
    ///
    /// Returns an error if the totals together exceed `u64::MAX`, or memory runs out.
    pub fn try_merge(&mut self, other: &Self) -> Result<(), Error> {
        self.handle.merge(&other.handle)
    }

    /// Adds the weights of many sketches, in order. This sketch is copied once, and not once for each.
    ///
    /// # Errors
    ///
    /// Returns an error if the totals together exceed `u64::MAX`, or memory runs out. Then nothing is added.
    pub fn merge_all(&mut self, others: &[Self]) -> Result<(), Error> {
        self.handle.merge_all(others)
    }

    /// Removes all items and weights. Sizes and key stay.
    pub fn reset(&mut self) {
        must(self.handle.reset())
    }

    /// Returns the items whose bound exceeds the maximum error, in rows of descending estimates.
    ///
    /// # Panics
    ///
    /// Panics if memory runs out.
    #[must_use]
    pub fn frequent_items(&self, error_type: ErrorType) -> Vec<Row<T>> {
        self.frequent_items_with_threshold(error_type, 0)
    }

    /// Returns the items whose bound exceeds both the threshold and the maximum error, in rows of descending
    /// estimates.
    ///
    /// # Panics
    ///
    /// Panics if memory runs out.
    #[must_use]
    pub fn frequent_items_with_threshold(&self, error_type: ErrorType, threshold: u64) -> Vec<Row<T>> {
        must(self.try_frequent_items(error_type, threshold))
    }

    /// Returns the items whose bound exceeds both the threshold and the maximum error, in rows of descending
    /// estimates, or an error if memory runs out.
    pub fn try_frequent_items(&self, error_type: ErrorType, threshold: u64) -> Result<Vec<Row<T>>, Error> {
        T::rows(&self.handle, error_type == ErrorType::NoFalseNegatives, threshold, Row::new)
    }

    /// Returns the image. It is without the sample size and the key.
    ///
    /// # Panics
    ///
    /// Panics if a string has 2^32 bytes or more, or memory runs out.
    #[must_use]
    pub fn serialize(&self) -> Vec<u8> {
        must(self.handle.serialize())
    }

    /// Returns the image, or an error if a string has 2^32 bytes or more, or memory runs out.
    pub fn try_serialize(&self) -> Result<Vec<u8>, Error> {
        self.handle.serialize()
    }

    /// Returns the number of bytes of the image, or an error if a string has 2^32 bytes or more.
    pub fn serialized_size(&self) -> Result<usize, Error> {
        self.handle.serialized_size()
    }

    /// Writes the image to the front of a buffer, and returns its number of bytes.
    ///
    /// # Errors
    ///
    /// Returns an error if the buffer is shorter than the image, or a string has 2^32 bytes or more.
    pub fn serialize_into(&self, out: &mut [u8]) -> Result<usize, Error> {
        self.handle.serialize_into(out)
    }

    /// Returns the sketch of an image, of any size that the image states, under a key that is drawn.
    ///
    /// # Errors
    ///
    /// Returns the error of the image's first failed check, or an error if memory runs out or the system has
    /// no random bytes.
    pub fn deserialize(bytes: &[u8]) -> Result<Self, Error> {
        Self::deserialize_with_options(bytes, &ImageOptions::default())
    }

    /// Returns the sketch of an untrusted image, which takes at most `max_bytes`.
    ///
    /// # Errors
    ///
    /// Returns the errors of [`deserialize`](Self::deserialize), and an error if the sketch takes more.
    pub fn deserialize_with_limit(bytes: &[u8], max_bytes: usize) -> Result<Self, Error> {
        Self::deserialize_with_options(bytes, &ImageOptions::new(max_bytes))
    }

    /// Returns the sketch of an image, under options: a limit of its bytes, and a key.
    ///
    /// # Errors
    ///
    /// Returns the errors of [`deserialize_with_limit`](Self::deserialize_with_limit).
    pub fn deserialize_with_options(bytes: &[u8], options: &ImageOptions) -> Result<Self, Error> {
        Ok(Self::deserialize_prefix(bytes, options)?.0)
    }

    /// Returns the sketch of the image at the front of bytes, and the number of bytes that the image takes.
    ///
    /// # Errors
    ///
    /// Returns the errors of [`deserialize_with_limit`](Self::deserialize_with_limit).
    pub fn deserialize_prefix(bytes: &[u8], options: &ImageOptions) -> Result<(Self, usize), Error> {
        let (handle, used) = Handle::read(T::KIND, bytes, options)?;
        Ok((Self::from(handle), used))
    }

    /// Returns a copy under the same key, or an error if memory runs out.
    pub fn try_clone(&self) -> Result<Self, Error> {
        self.handle.try_clone().map(Self::from)
    }
}

impl<T: FrequentItemValue> sealed::Owner for FrequentItemsSketch<T> {
    fn from_handle(handle: Handle) -> Self {
        Self::from(handle)
    }

    fn handle(&self) -> &Handle {
        &self.handle
    }

    fn handle_mut(&mut self) -> &mut Handle {
        &mut self.handle
    }
}

impl<T: FrequentItemValue> Sketch for FrequentItemsSketch<T> {}

impl<T: FrequentItemValue> Clone for FrequentItemsSketch<T> {
    fn clone(&self) -> Self {
        must(self.try_clone())
    }
}

impl<T: FrequentItemValue> fmt::Debug for FrequentItemsSketch<T> {
    fn fmt(&self, formatter: &mut fmt::Formatter<'_>) -> fmt::Result {
        formatter
            .debug_struct("FrequentItemsSketch")
            .field("max_map_size", &self.max_map_size())
            .field("num_active_items", &self.num_active_items())
            .field("total_weight", &self.total_weight())
            .field("maximum_error", &self.maximum_error())
            .finish()
    }
}

macro_rules! extend {
    ($($item:ty, $borrowed:ty;)*) => {$(
        impl Extend<$item> for FrequentItemsSketch<$item> {
            fn extend<I: IntoIterator<Item = $item>>(&mut self, items: I) {
                for item in items {
                    self.update(item);
                }
            }
        }

        impl<'a> Extend<&'a $borrowed> for FrequentItemsSketch<$item> {
            fn extend<I: IntoIterator<Item = &'a $borrowed>>(&mut self, items: I) {
                for item in items {
                    self.update_ref(item);
                }
            }
        }
    )*};
}

extend!(String, str; i64, i64; u64, u64;);

impl<T: FrequentItemValue> AddAssign<&FrequentItemsSketch<T>> for FrequentItemsSketch<T> {
    fn add_assign(&mut self, other: &FrequentItemsSketch<T>) {
        self.merge(other)
    }
}
