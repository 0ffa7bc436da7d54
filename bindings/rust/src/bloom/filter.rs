//! Filters.

use crate::error::{must, Error};
use crate::fed::with_item;
use crate::handle::{self, zeros, Handle};
use crate::items::Batch;
use crate::options::ImageOptions;
use crate::shared::{sealed, Sketch};
use crate::sys;
use std::fmt;
use std::hash::Hash;
use std::ops::{BitAndAssign, BitOrAssign, SubAssign};

/// A Bloom filter. [`BloomFilterBuilder`](super::BloomFilterBuilder) creates it.
///
/// An item is what its `Hash` feeds. So `"a"` and `String::from("a")` are one item, and `1u32` and `1u64` are
/// two. `==` compares bits, hashes, seeds and set bits.
///
/// # Panics
///
/// `clone()` panics if memory runs out: [`try_clone`](Self::try_clone) returns an error. `|=`, `&=` and `-=`
/// panic if the filters are not [compatible](Self::is_compatible). Calls with an item of more than 128 bytes
/// that is no string panic if memory runs out.
#[repr(transparent)]
pub struct BloomFilter(pub(super) Handle);

impl BloomFilter {
    pub(crate) fn handle_mut(&mut self) -> &mut Handle {
        &mut self.0
    }

    /// Returns whether the filter contains an item: `true` if all the item's positions are set.
    #[inline]
    #[must_use]
    pub fn contains<T: Hash + ?Sized>(&self, item: &T) -> bool {
        must(self.try_contains(item))
    }

    /// Returns whether the filter contains an item, or an error if a long item has no memory.
    #[inline]
    pub fn try_contains<T: Hash + ?Sized>(&self, item: &T) -> Result<bool, Error> {
        with_item(item, |item| self.0.contains(item))
    }

    /// Inserts an item, and returns whether the filter contained it before.
    #[inline]
    pub fn contains_and_insert<T: Hash + ?Sized>(&mut self, item: &T) -> bool {
        must(self.try_contains_and_insert(item))
    }

    /// Inserts an item, and returns whether the filter contained it before, or an error if a long item has no
    /// memory.
    #[inline]
    pub fn try_contains_and_insert<T: Hash + ?Sized>(&mut self, item: &T) -> Result<bool, Error> {
        with_item(item, |item| self.0.contains_and_insert(item))
    }

    /// Inserts an item. Then [`contains`](Self::contains) returns `true` for it.
    #[inline]
    pub fn insert<T: Hash>(&mut self, item: T) {
        must(self.try_insert(&item))
    }

    /// Inserts an item. Returns an error if a long item has no memory.
    #[inline]
    pub fn try_insert<T: Hash + ?Sized>(&mut self, item: &T) -> Result<(), Error> {
        with_item(item, |item| self.0.insert(item))
    }

    /// Inserts many items, as one after another.
    ///
    /// # Errors
    ///
    /// Returns an error if offsets are wrong, or a text is not UTF-8. Then no item is inserted.
    pub fn insert_all<B: Batch + ?Sized>(&mut self, items: &B) -> Result<(), Error> {
        items.blocks(&mut |items, _| self.0.insert_all(items))
    }

    /// Returns for each item whether the filter contains it.
    ///
    /// # Errors
    ///
    /// Returns an error if offsets are wrong, or a text is not UTF-8, or memory runs out.
    pub fn contains_all<B: Batch + ?Sized>(&self, items: &B) -> Result<Vec<bool>, Error> {
        let mut results = zeros(items.count()?)?;
        self.contains_all_into(items, &mut results)?;
        Ok(results)
    }

    /// Writes for each item whether the filter contains it.
    ///
    /// # Errors
    ///
    /// Returns the errors of [`contains_all`](Self::contains_all), and an error unless there are as many
    /// results as items.
    pub fn contains_all_into<B: Batch + ?Sized>(&self, items: &B, results: &mut [bool]) -> Result<(), Error> {
        items.check_room(results.len())?;
        items.blocks(&mut |items, part| self.0.contains_all(items, part.of_mut(results)))
    }

    /// Inserts many items, and returns for each whether the filter contained it before. So one pass finds
    /// what is new in a stream.
    ///
    /// # Errors
    ///
    /// Returns the errors of [`contains_all`](Self::contains_all). Then no item is inserted.
    pub fn contains_and_insert_all<B: Batch + ?Sized>(&mut self, items: &B) -> Result<Vec<bool>, Error> {
        let mut results = zeros(items.count()?)?;
        self.contains_and_insert_all_into(items, &mut results)?;
        Ok(results)
    }

    /// Inserts many items, and writes for each whether the filter contained it before.
    ///
    /// # Errors
    ///
    /// Returns the errors of [`contains_all_into`](Self::contains_all_into). Then no item is inserted.
    pub fn contains_and_insert_all_into<B: Batch + ?Sized>(
        &mut self,
        items: &B,
        results: &mut [bool],
    ) -> Result<(), Error> {
        items.check_room(results.len())?;
        items.blocks(&mut |items, part| self.0.contains_and_insert_all(items, part.of_mut(results)))
    }

    /// Removes all items. Bits, hashes and seed stay.
    pub fn reset(&mut self) {
        must(self.0.reset())
    }

    /// Adds the positions of another filter, which then are the union.
    ///
    /// # Errors
    ///
    /// Returns an error if the filters are not [compatible](Self::is_compatible).
    pub fn union(&mut self, other: &BloomFilter) -> Result<(), Error> {
        self.0.merge(&other.0)
    }

    /// Adds the positions of many filters.
    ///
    /// # Errors
    ///
    /// Returns an error if one is not [compatible](Self::is_compatible), or if memory runs out. Then nothing
    /// is added.
    pub fn merge_all(&mut self, others: &[BloomFilter]) -> Result<(), Error> {
        self.0.merge_all(others)
    }

    /// Keeps the positions that both filters have.
    ///
    /// # Errors
    ///
    /// Returns an error if the filters are not [compatible](Self::is_compatible).
    pub fn intersect(&mut self, other: &BloomFilter) -> Result<(), Error> {
        self.0.intersect(&other.0)
    }

    /// Removes the positions of another filter. Items of this filter that share a position with it are no
    /// longer contained.
    ///
    /// # Errors
    ///
    /// Returns an error if the filters are not [compatible](Self::is_compatible).
    pub fn difference(&mut self, other: &BloomFilter) -> Result<(), Error> {
        self.0.difference(&other.0)
    }

    /// Returns whether no bit is set.
    #[must_use]
    pub fn is_empty(&self) -> bool {
        self.bits_used() == 0
    }

    /// Returns the number of set bits.
    #[must_use]
    pub fn bits_used(&self) -> u64 {
        self.0.number(sys::DS_NUMBER_BITS_USED)
    }

    /// Returns the number of bits.
    #[must_use]
    pub fn capacity(&self) -> usize {
        self.0.number(sys::DS_NUMBER_NUM_BITS) as usize
    }

    /// Returns the number of hashes, which is that of an item's positions.
    #[must_use]
    pub fn num_hashes(&self) -> u16 {
        self.0.number(sys::DS_NUMBER_NUM_HASHES) as u16
    }

    /// Returns the seed.
    #[must_use]
    pub fn seed(&self) -> u64 {
        self.0.number(sys::DS_NUMBER_SEED)
    }

    /// Returns the share of bits that are set.
    #[must_use]
    pub fn load_factor(&self) -> f64 {
        self.bits_used() as f64 / self.capacity() as f64
    }

    /// Returns the load factor to the power of the number of hashes: an estimate of the false-positive rate,
    /// under ideal hashes.
    #[must_use]
    pub fn estimated_fpp(&self) -> f64 {
        self.load_factor().powf(self.num_hashes().into())
    }

    /// Returns whether two filters have the same bits, hashes and seed, so that they can be combined.
    #[must_use]
    pub fn is_compatible(&self, other: &Self) -> bool {
        (self.capacity(), self.num_hashes(), self.seed())
            == (other.capacity(), other.num_hashes(), other.seed())
    }

    /// Returns the image.
    ///
    /// # Panics
    ///
    /// Panics if memory runs out.
    #[must_use]
    pub fn serialize(&self) -> Vec<u8> {
        must(self.0.serialize())
    }

    /// Returns the image, or an error if memory runs out.
    pub fn try_serialize(&self) -> Result<Vec<u8>, Error> {
        self.0.serialize()
    }

    /// Returns the number of bytes of the image.
    #[must_use]
    pub fn serialized_size(&self) -> usize {
        must(self.0.serialized_size())
    }

    /// Writes the image to the front of a buffer, and returns its number of bytes.
    ///
    /// # Errors
    ///
    /// Returns an error if the buffer is shorter than the image.
    pub fn serialize_into(&self, out: &mut [u8]) -> Result<usize, Error> {
        self.0.serialize_into(out)
    }

    /// Returns the filter of an image, of any size that the image states: see
    /// [`deserialize_with_limit`](Self::deserialize_with_limit).
    ///
    /// # Errors
    ///
    /// Returns the error of the image's first failed check, or an error if memory runs out.
    pub fn deserialize(bytes: &[u8]) -> Result<Self, Error> {
        Self::deserialize_with_options(bytes, &ImageOptions::default())
    }

    /// Returns the filter of an untrusted image, which takes at most `max_bytes`. An image of 24 bytes can
    /// state a filter of 16 GB.
    ///
    /// # Errors
    ///
    /// Returns the errors of [`deserialize`](Self::deserialize), and an error if the filter takes more.
    pub fn deserialize_with_limit(bytes: &[u8], max_bytes: usize) -> Result<Self, Error> {
        Self::deserialize_with_options(bytes, &ImageOptions::new(max_bytes))
    }

    /// Returns the filter of an image, under options.
    ///
    /// # Errors
    ///
    /// Returns the errors of [`deserialize_with_limit`](Self::deserialize_with_limit).
    pub fn deserialize_with_options(bytes: &[u8], options: &ImageOptions) -> Result<Self, Error> {
        Ok(Self::deserialize_prefix(bytes, options)?.0)
    }

    /// Returns the filter of the image at the front of bytes, and the number of bytes that the image takes.
    ///
    /// # Errors
    ///
    /// Returns the errors of [`deserialize_with_limit`](Self::deserialize_with_limit).
    pub fn deserialize_prefix(bytes: &[u8], options: &ImageOptions) -> Result<(Self, usize), Error> {
        let (handle, used) = Handle::read(sys::DS_BLOOM, bytes, options)?;
        Ok((BloomFilter(handle), used))
    }

    /// Returns a copy, or an error if memory runs out.
    pub fn try_clone(&self) -> Result<Self, Error> {
        self.0.try_clone().map(BloomFilter)
    }

    /// Returns the number of bytes of the bits.
    #[must_use]
    pub fn estimated_size(&self) -> usize {
        self.0.memory_bytes()
    }

    /// Returns the bits of a filter for a number of items, with one false positive in `questions` under ideal
    /// hashes. In whole numbers, and never fewer than the published formula asks for. With few items or a low
    /// rate there are more false positives: take at least [`min_num_bits`](Self::min_num_bits).
    ///
    /// # Errors
    ///
    /// Returns an error for no items, for fewer than two questions, and above 137438953152 bits.
    pub fn suggest_num_bits(num_items: u64, questions: u64) -> Result<u64, Error> {
        handle::suggest_num_bits(num_items, questions)
    }

    /// Returns the least bits with which two hashes repeat less often than once in `questions`: 4 times the square
    /// root of `num_items` times `questions`, rounded up. The rate of a filter of at least these bits and the
    /// suggested ones is not proved. As measured, it is at most 1.3 in `questions`.
    ///
    /// # Errors
    ///
    /// Returns an error above 137438953152 bits.
    pub fn min_num_bits(num_items: u64, questions: u64) -> Result<u64, Error> {
        handle::min_num_bits(num_items, questions)
    }

    /// Returns the hashes of a filter of `num_bits` bits for a number of items.
    ///
    /// # Errors
    ///
    /// Returns an error for no items, no bits, above 137438953152 bits and above 32767 hashes.
    pub fn suggest_num_hashes(num_bits: u64, num_items: u64) -> Result<u16, Error> {
        handle::suggest_num_hashes(num_bits, num_items)
    }
}

impl sealed::Owner for BloomFilter {
    fn from_handle(handle: Handle) -> Self {
        BloomFilter(handle)
    }

    fn handle(&self) -> &Handle {
        &self.0
    }

    fn handle_mut(&mut self) -> &mut Handle {
        &mut self.0
    }
}

impl Sketch for BloomFilter {}

impl Clone for BloomFilter {
    fn clone(&self) -> Self {
        must(self.try_clone())
    }
}

impl PartialEq for BloomFilter {
    fn eq(&self, other: &Self) -> bool {
        must(self.0.equal(&other.0))
    }
}

impl Eq for BloomFilter {}

impl fmt::Debug for BloomFilter {
    fn fmt(&self, formatter: &mut fmt::Formatter<'_>) -> fmt::Result {
        formatter
            .debug_struct("BloomFilter")
            .field("capacity", &self.capacity())
            .field("num_hashes", &self.num_hashes())
            .field("seed", &self.seed())
            .field("bits_used", &self.bits_used())
            .finish()
    }
}

impl<T: Hash> Extend<T> for BloomFilter {
    fn extend<I: IntoIterator<Item = T>>(&mut self, items: I) {
        for item in items {
            self.insert(item);
        }
    }
}

impl BitOrAssign<&BloomFilter> for BloomFilter {
    fn bitor_assign(&mut self, other: &BloomFilter) {
        must(self.union(other))
    }
}

impl BitAndAssign<&BloomFilter> for BloomFilter {
    fn bitand_assign(&mut self, other: &BloomFilter) {
        must(self.intersect(other))
    }
}

impl SubAssign<&BloomFilter> for BloomFilter {
    fn sub_assign(&mut self, other: &BloomFilter) {
        must(self.difference(other))
    }
}
