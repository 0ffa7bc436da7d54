//! The calls on frequent items.

use super::items::in_c;
use super::{done, raw_key, suggest, zeros, Handle, Items};
use crate::error::Error;
use crate::fed::Item;
use crate::sys;
use crate::Key;
use std::ptr;

use crate::frequencies::ItemBounds as Bounds;

/// A type of items that the library counts.
pub trait Counted: Sized {
    const KIND: i32;
    /// Makes a call on the item of this type that feeds a hasher this. Returns nothing if there is none.
    fn with_item<R>(
        item: Item<'_>,
        call: impl FnOnce(*const sys::ds_item) -> Result<R, Error>,
    ) -> Option<Result<R, Error>>;
    /// Returns a report, as rows that a function makes of an item and its bounds.
    fn rows<R>(
        handle: &Handle,
        no_false_negatives: bool,
        threshold: u64,
        row: impl Fn(Self, Bounds) -> R,
    ) -> Result<Vec<R>, Error>;
}

macro_rules! number {
    ($number:ty, $kind:ident, $item:ident, $rows:ident) => {
        impl Counted for $number {
            const KIND: i32 = sys::$kind;

            #[inline]
            fn with_item<R>(
                item: Item<'_>,
                call: impl FnOnce(*const sys::ds_item) -> Result<R, Error>,
            ) -> Option<Result<R, Error>> {
                match item {
                    Item::Number(_) => Some(call(&sys::ds_item { kind: sys::$item, ..in_c(item) })),
                    Item::Text(_) | Item::Fed(_) => None,
                }
            }

            fn rows<R>(
                handle: &Handle,
                no_false_negatives: bool,
                threshold: u64,
                row: impl Fn(Self, Bounds) -> R,
            ) -> Result<Vec<R>, Error> {
                let room = handle.number(sys::DS_NUMBER_NUM_ACTIVE_ITEMS) as usize;
                let mut items: Vec<$number> = zeros(room)?;
                let mut bounds: Vec<Bounds> = zeros(room)?;
                let mut count = 0;
                // SAFETY: both buffers have room for `room` values, and are two.
                done(unsafe {
                    sys::$rows(
                        handle.get(),
                        no_false_negatives,
                        threshold,
                        usize::MAX,
                        items.as_mut_ptr(),
                        room,
                        bounds.as_mut_ptr(),
                        room,
                        &mut count,
                    )
                })?;
                let mut rows = Vec::new();
                rows.try_reserve_exact(count).map_err(Error::no_memory)?;
                rows.extend(
                    items.into_iter().zip(bounds).take(count).map(|(item, bounds)| row(item, bounds)),
                );
                Ok(rows)
            }
        }
    };
}

number!(u64, DS_FREQUENT_ITEMS_U64, DS_ITEM_U64, ds_frequent_items_u64_rows);
number!(i64, DS_FREQUENT_ITEMS_I64, DS_ITEM_I64, ds_frequent_items_i64_rows);

impl Counted for String {
    const KIND: i32 = sys::DS_FREQUENT_ITEMS_STRING;

    /// The string's bytes and then 0xff are what is fed.
    #[inline]
    fn with_item<R>(
        item: Item<'_>,
        call: impl FnOnce(*const sys::ds_item) -> Result<R, Error>,
    ) -> Option<Result<R, Error>> {
        let call = |text: &[u8]| call(&in_c(Item::Text(text)));
        let result = match item {
            Item::Text(text) => call(text),
            Item::Fed([text @ .., 0xff]) => call(text),
            Item::Number(number) => match number.to_le_bytes() {
                [text @ .., 0xff] => call(&text),
                _ => return None,
            },
            Item::Fed(_) => return None,
        };
        match result {
            Err(error) if error.code() == sys::DS_INVALID_UTF8 => None,
            result => Some(result),
        }
    }

    fn rows<R>(
        handle: &Handle,
        no_false_negatives: bool,
        threshold: u64,
        row: impl Fn(Self, Bounds) -> R,
    ) -> Result<Vec<R>, Error> {
        // 16 bytes a string is a first guess. A second call has the room that the first one needs.
        let mut room = handle.number(sys::DS_NUMBER_NUM_ACTIVE_ITEMS) as usize;
        let mut room_for_bytes = room.saturating_mul(16);
        loop {
            let mut bytes: Vec<u8> = zeros(room_for_bytes)?;
            let mut offsets: Vec<u64> = zeros(room + 1)?;
            let mut bounds: Vec<Bounds> = zeros(room)?;
            let (mut count, mut num_bytes) = (0, 0);
            // SAFETY: the buffers have the room that is passed, and are three.
            let result = unsafe {
                sys::ds_frequent_items_string_rows(
                    handle.get(),
                    no_false_negatives,
                    threshold,
                    usize::MAX,
                    bytes.as_mut_ptr(),
                    bytes.len(),
                    offsets.as_mut_ptr(),
                    offsets.len(),
                    bounds.as_mut_ptr(),
                    bounds.len(),
                    &mut count,
                    &mut num_bytes,
                )
            };
            if result == sys::DS_NO_ROOM {
                room = count;
                room_for_bytes = num_bytes;
                continue;
            }
            done(result)?;
            let mut rows = Vec::new();
            rows.try_reserve_exact(count).map_err(Error::no_memory)?;
            for (pair, bounds) in offsets.windows(2).zip(&bounds).take(count) {
                rows.push(row(owned(&bytes[pair[0] as usize..pair[1] as usize])?, *bounds));
            }
            return Ok(rows);
        }
    }
}

/// Returns a string of the library, which is UTF-8.
fn owned(bytes: &[u8]) -> Result<String, Error> {
    let mut string = String::new();
    string.try_reserve_exact(bytes.len()).map_err(Error::no_memory)?;
    string.push_str(&String::from_utf8_lossy(bytes));
    Ok(string)
}

impl Handle {
    pub(crate) fn new_frequent_items(
        kind: i32,
        max_map_size: usize,
        sample_size: usize,
        key: Option<Key>,
    ) -> Result<Handle, Error> {
        let key = key.map(raw_key);
        let place = key.as_ref().map_or(ptr::null(), |key| key as *const sys::ds_key);
        // SAFETY: the key lives while the call runs, and null stands for none.
        Handle::created(|handle| unsafe {
            sys::ds_frequent_items_new(handle, kind, max_map_size, sample_size, place)
        })
    }

    /// Adds a weight to the item of a type that feeds a hasher this. Returns nothing if there is none.
    #[inline]
    pub(crate) fn update<T: Counted>(&mut self, item: Item<'_>, weight: u64) -> Option<Result<(), Error>> {
        // SAFETY: rules 2 and 3 hold, as the head of `handle` says: the item's bytes are borrowed.
        T::with_item(item, |item| done(unsafe { sys::ds_update(self.get(), item, weight) }).map(drop))
    }

    /// Returns the bounds of the item of a type that feeds a hasher this, or nothing if there is none.
    #[inline]
    pub(crate) fn bounds<T: Counted>(&self, item: Item<'_>) -> Option<Result<Bounds, Error>> {
        // SAFETY: as above.
        let call = |sketch, item, bounds| unsafe { sys::ds_frequent_items_bounds(sketch, item, bounds) };
        T::with_item(item, |item| self.written(|sketch, bounds| call(sketch, item, bounds)))
    }

    pub(crate) fn set_sample_size(&mut self, sample_size: usize) -> Result<(), Error> {
        // SAFETY: rule 3.
        done(unsafe { sys::ds_frequent_items_set_sample_size(self.get(), sample_size) }).map(drop)
    }

    pub(crate) fn add_counts(&mut self, items: &Items<'_>, counts: &[u64]) -> Result<(), Error> {
        <u64 as super::Cell>::update_all(self, items, counts)
    }

    pub(crate) fn bounds_all(&self, items: &Items<'_>, bounds: &mut [Bounds]) -> Result<(), Error> {
        let (place, count) = (bounds.as_mut_ptr(), bounds.len());
        // SAFETY: the bounds are `&mut`, so they do not overlap the items, which are borrowed.
        done(unsafe { sys::ds_frequent_items_bounds_all(self.get(), items.get(), place, count) }).map(drop)
    }
}

/// Returns the smallest maximum size whose guarantee is an error of at most the total over `parts`.
pub(crate) fn suggest_max_map_size(parts: usize) -> Result<usize, Error> {
    suggest(sys::DS_SIZE_MAX_MAP_SIZE, parts as u64, 0).map(|size| size as usize)
}
