//! The calls on Count-Min sketches.

use super::filter::data;
use super::items::{apart_from, in_c};
use super::{copied, done, Handle, Image, Items};
use crate::error::Error;
use crate::fed::Item;
use crate::sys;

/// A type of the library's cells.
pub trait Cell: Copy + Default + Ord {
    const KIND: i32;
    fn from_magnitude(number: u64) -> Self;
    fn magnitude(self) -> u64;
    fn update(handle: &mut Handle, item: Item<'_>, weight: Self) -> Result<(), Error>;
    fn update_all(handle: &mut Handle, items: &Items<'_>, weights: &[Self]) -> Result<(), Error>;
    fn estimate(handle: &Handle, item: Item<'_>) -> Result<Self, Error>;
    fn estimate_all(handle: &Handle, items: &Items<'_>, estimates: &mut [Self]) -> Result<(), Error>;
    fn upper_bound(handle: &Handle, item: Item<'_>) -> Result<Self, Error>;
    fn image_estimate(image: &[u8], seed: u64, item: Item<'_>) -> Result<Self, Error>;
}

macro_rules! cell {
    ($cell:ty, $kind:ident, $update:ident, $update_all:ident, $estimate:ident, $estimate_all:ident,
     $upper_bound:ident, $image_estimate:ident, $magnitude:expr) => {
        impl Cell for $cell {
            const KIND: i32 = sys::$kind;

            #[inline]
            fn from_magnitude(number: u64) -> Self {
                number as $cell
            }

            #[inline]
            fn magnitude(self) -> u64 {
                $magnitude(self)
            }

            #[inline]
            fn update(handle: &mut Handle, item: Item<'_>, weight: Self) -> Result<(), Error> {
                // SAFETY: rules 2 and 3 hold, as the head of `handle` says: the item's bytes are borrowed.
                done(unsafe { sys::$update(handle.get(), &in_c(item), weight) }).map(drop)
            }

            fn update_all(handle: &mut Handle, items: &Items<'_>, weights: &[Self]) -> Result<(), Error> {
                if items.touch(weights) {
                    return Self::update_all(handle, items, &copied(weights)?);
                }
                let (place, count) = (weights.as_ptr(), weights.len());
                // SAFETY: weights and items are borrowed, and do not overlap.
                done(unsafe { sys::$update_all(handle.get(), items.get(), place, count) }).map(drop)
            }

            #[inline]
            fn estimate(handle: &Handle, item: Item<'_>) -> Result<Self, Error> {
                // SAFETY: as of `update`.
                handle.written(|sketch, estimate| unsafe { sys::$estimate(sketch, &in_c(item), estimate) })
            }

            fn estimate_all(handle: &Handle, items: &Items<'_>, estimates: &mut [Self]) -> Result<(), Error> {
                let (place, count) = (estimates.as_mut_ptr(), estimates.len());
                // SAFETY: the estimates are `&mut`, so they do not overlap the items, which are borrowed.
                done(unsafe { sys::$estimate_all(handle.get(), items.get(), place, count) }).map(drop)
            }

            #[inline]
            fn upper_bound(handle: &Handle, item: Item<'_>) -> Result<Self, Error> {
                // SAFETY: as of `update`.
                handle.written(|sketch, bound| unsafe { sys::$upper_bound(sketch, &in_c(item), bound) })
            }

            #[inline]
            fn image_estimate(image: &[u8], seed: u64, item: Item<'_>) -> Result<Self, Error> {
                let mut estimate = 0;
                // SAFETY: the image and the item's bytes are borrowed while the call runs, and do not overlap.
                let result = apart_from(image, item, |image, length, item| unsafe {
                    sys::$image_estimate(image, length, seed, item, &mut estimate)
                })?;
                data(result).map(|_| estimate)
            }
        }
    };
}

cell!(
    u64,
    DS_COUNT_MIN_U64,
    ds_update,
    ds_update_all_weighted,
    ds_count_min_u64_estimate,
    ds_count_min_u64_estimate_all,
    ds_count_min_u64_upper_bound,
    ds_count_min_u64_image_estimate,
    |number| number
);
cell!(
    i64,
    DS_COUNT_MIN_I64,
    ds_count_min_i64_update,
    ds_count_min_i64_update_all_weighted,
    ds_count_min_i64_estimate,
    ds_count_min_i64_estimate_all,
    ds_count_min_i64_upper_bound,
    ds_count_min_i64_image_estimate,
    i64::unsigned_abs
);

impl Handle {
    pub(crate) fn new_count_min(
        kind: i32,
        num_hashes: u8,
        num_buckets: u32,
        seed: u64,
    ) -> Result<Handle, Error> {
        // SAFETY: the handle is new.
        Handle::created(|handle| unsafe {
            sys::ds_count_min_new(handle, kind, num_hashes, num_buckets, seed)
        })
    }

    /// Adds 1 for each item, to a Count-Min sketch or frequent items.
    pub(crate) fn update_all(&mut self, items: &Items<'_>) -> Result<(), Error> {
        // SAFETY: the items are borrowed while the call runs.
        done(unsafe { sys::ds_update_all(self.get(), items.get()) }).map(drop)
    }

    pub(crate) fn halve(&mut self) -> Result<(), Error> {
        // SAFETY: rule 3.
        done(unsafe { sys::ds_count_min_u64_halve(self.get()) }).map(drop)
    }

    pub(crate) fn decay(&mut self, numerator: u64, denominator: u64) -> Result<(), Error> {
        // SAFETY: rule 3.
        done(unsafe { sys::ds_count_min_u64_decay(self.get(), numerator, denominator) }).map(drop)
    }
}

impl Image<'_> {
    #[inline]
    pub(crate) fn estimate<C: Cell>(&self, seed: u64, item: Item<'_>) -> Result<C, Error> {
        C::image_estimate(self.bytes(), seed, item)
    }
}
