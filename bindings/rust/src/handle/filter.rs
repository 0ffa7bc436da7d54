//! The calls on filters.

use super::items::{apart_from, in_c};
use super::{done, suggest, Handle, Items};
use crate::error::Error;
use crate::fed::Item;
use crate::sys;

impl Handle {
    pub(crate) fn new_filter(num_bits: u64, num_hashes: u16, seed: u64) -> Result<Handle, Error> {
        // SAFETY: the handle is new.
        Handle::created(|handle| unsafe { sys::ds_bloom_new(handle, num_bits, num_hashes, seed) })
    }

    #[inline]
    pub(crate) fn insert(&mut self, item: Item<'_>) -> Result<(), Error> {
        // SAFETY: rules 2 and 3 hold, as the head of `handle` says: the item's bytes are borrowed.
        done(unsafe { sys::ds_bloom_insert(self.get(), &in_c(item)) }).map(drop)
    }

    #[inline]
    pub(crate) fn contains(&self, item: Item<'_>) -> Result<bool, Error> {
        // SAFETY: as above.
        Ok(done(unsafe { sys::ds_bloom_contains(self.get(), &in_c(item)) })? > 0)
    }

    #[inline]
    pub(crate) fn contains_and_insert(&mut self, item: Item<'_>) -> Result<bool, Error> {
        // SAFETY: as above.
        Ok(done(unsafe { sys::ds_bloom_contains_and_insert(self.get(), &in_c(item)) })? > 0)
    }

    pub(crate) fn insert_all(&mut self, items: &Items<'_>) -> Result<(), Error> {
        // SAFETY: the items are borrowed while the call runs.
        done(unsafe { sys::ds_bloom_insert_all(self.get(), items.get()) }).map(drop)
    }

    pub(crate) fn contains_all(&self, items: &Items<'_>, results: &mut [bool]) -> Result<(), Error> {
        let (place, count) = (results.as_mut_ptr(), results.len());
        // SAFETY: the results are `&mut`, so they do not overlap the items, which are borrowed.
        done(unsafe { sys::ds_bloom_contains_all(self.get(), items.get(), place, count) }).map(drop)
    }

    pub(crate) fn contains_and_insert_all(
        &mut self,
        items: &Items<'_>,
        results: &mut [bool],
    ) -> Result<(), Error> {
        let (place, count) = (results.as_mut_ptr(), results.len());
        // SAFETY: as above.
        let result = unsafe { sys::ds_bloom_contains_and_insert_all(self.get(), items.get(), place, count) };
        done(result).map(drop)
    }

    pub(crate) fn intersect(&mut self, other: &Handle) -> Result<(), Error> {
        self.join(other, sys::DS_JOIN_INTERSECTION)
    }

    pub(crate) fn difference(&mut self, other: &Handle) -> Result<(), Error> {
        self.join(other, sys::DS_JOIN_DIFFERENCE)
    }
}

/// The bytes of an image that is queried in place.
#[derive(Clone, Copy)]
pub(crate) struct Image<'a>(pub(super) &'a [u8]);

impl<'a> Image<'a> {
    pub(crate) fn new(bytes: &'a [u8]) -> Self {
        Image(bytes)
    }

    pub(crate) fn bytes(&self) -> &'a [u8] {
        self.0
    }

    #[inline]
    pub(crate) fn contains(&self, item: Item<'_>) -> Result<bool, Error> {
        // SAFETY: the image and the item's bytes are borrowed while the call runs, and do not overlap.
        let result = apart_from(self.0, item, |image, length, item| unsafe {
            sys::ds_bloom_image_contains(image, length, item)
        })?;
        data(result).map(|result| result > 0)
    }

    pub(crate) fn contains_all(&self, items: &Items<'_>, results: &mut [bool]) -> Result<(), Error> {
        if items.touch(self.0) {
            return Err(Error::of_argument(sys::DS_BAD_ARGUMENT));
        }
        let (image, length) = (self.0.as_ptr(), self.0.len());
        let (place, count) = (results.as_mut_ptr(), results.len());
        // SAFETY: the items do not overlap the image. The results are `&mut`, so they overlap neither.
        let result = unsafe { sys::ds_bloom_image_contains_all(image, length, items.get(), place, count) };
        data(result).map(drop)
    }
}

/// Returns the result of a call if it was done, or the error of its image.
#[inline]
pub(super) fn data(result: i32) -> Result<i32, Error> {
    match result {
        sys::DS_NO_ROOM | sys::DS_BAD_ARGUMENT | sys::DS_INVALID_UTF8 => Err(Error::of_argument(result)),
        _ if result < 0 => Err(Error::of_data(result)),
        _ => Ok(result),
    }
}

/// Returns the bits of a filter for a number of items, at one false positive in `questions`.
pub(crate) fn suggest_num_bits(num_items: u64, questions: u64) -> Result<u64, Error> {
    suggest(sys::DS_SIZE_NUM_BITS, num_items, questions)
}

/// Returns the least bits of a filter for a number of items, at one false positive in `questions`.
pub(crate) fn min_num_bits(num_items: u64, questions: u64) -> Result<u64, Error> {
    suggest(sys::DS_SIZE_MIN_NUM_BITS, num_items, questions)
}

/// Returns the hashes of a filter of `num_bits` bits for a number of items.
pub(crate) fn suggest_num_hashes(num_bits: u64, num_items: u64) -> Result<u16, Error> {
    // The library's numbers of hashes are at most 32767.
    suggest(sys::DS_SIZE_FILTER_HASHES, num_bits, num_items).map(|hashes| hashes as u16)
}
