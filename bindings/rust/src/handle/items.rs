//! Items as arguments of calls: one, and many, of one call on all of them.

use super::{copied, done, overlap};
use crate::error::Error;
use crate::fed::Item;
use crate::sys;
use std::marker::PhantomData;
use std::ptr::NonNull;

/// The kind of items of which two parts overlap. It is none of the library's, so each call rejects them.
const OVERLAPPING: i32 = -1;

/// Returns an item for a call, which may read its bytes while they are borrowed.
#[inline]
pub(super) fn in_c(item: Item<'_>) -> sys::ds_item {
    let (kind, number, bytes): (i32, u64, &[u8]) = match item {
        Item::Number(number) => (sys::DS_ITEM_U64, number, &[]),
        Item::Text(text) => (sys::DS_ITEM_STRING, 0, text),
        Item::Fed(bytes) => (sys::DS_ITEM_FED, 0, bytes),
    };
    sys::ds_item { kind, number, bytes: bytes.as_ptr(), length: bytes.len() }
}

/// Makes a call on an item and the bytes of an image. If the item's bytes overlap these, it is made on a copy.
#[inline]
pub(super) fn apart_from(
    image: &[u8],
    item: Item<'_>,
    call: impl FnOnce(*const u8, usize, *const sys::ds_item) -> i32,
) -> Result<i32, Error> {
    let mut plain = in_c(item);
    let copy;
    if let Item::Text(bytes) | Item::Fed(bytes) = item {
        if overlap(bytes, image) {
            copy = copied(bytes)?;
            plain.bytes = copy.as_ptr();
        }
    }
    Ok(call(image.as_ptr(), image.len(), &plain))
}

/// A string of an array of strings, or bytes as a `Hash` feeds them.
#[derive(Clone, Copy)]
#[repr(transparent)]
pub struct Text<'a>(sys::ds_string, PhantomData<&'a [u8]>);

impl<'a> Text<'a> {
    /// The empty string.
    pub const EMPTY: Text<'static> =
        Text(sys::ds_string { bytes: NonNull::<u8>::dangling().as_ptr(), length: 0 }, PhantomData);

    #[inline]
    pub fn new(bytes: &'a [u8]) -> Self {
        Text(sys::ds_string { bytes: bytes.as_ptr(), length: bytes.len() }, PhantomData)
    }
}

/// Many items of one kind, where they are.
pub struct Items<'a>(sys::ds_items, PhantomData<&'a [u8]>);

impl<'a> Items<'a> {
    /// Returns no items of a kind, whose pointers are to no values.
    #[inline]
    fn none(kind: i32) -> Self {
        let plain = sys::ds_items {
            kind,
            u64s: NonNull::dangling().as_ptr(),
            num_u64s: 0,
            i64s: NonNull::dangling().as_ptr(),
            num_i64s: 0,
            bytes: NonNull::dangling().as_ptr(),
            num_bytes: 0,
            offsets: NonNull::dangling().as_ptr(),
            num_offsets: 0,
            offsets32: NonNull::dangling().as_ptr(),
            num_offsets32: 0,
            strings: NonNull::dangling().as_ptr(),
            num_strings: 0,
            fed: NonNull::dangling().as_ptr(),
            num_fed: 0,
            validity: NonNull::dangling().as_ptr(),
            num_validity: 0,
            first_bit: 0,
        };
        Items(plain, PhantomData)
    }

    #[inline]
    pub fn u64s(numbers: &'a [u64]) -> Self {
        let mut items = Items::none(sys::DS_ITEMS_U64);
        items.0.u64s = numbers.as_ptr();
        items.0.num_u64s = numbers.len();
        items
    }

    #[inline]
    pub fn i64s(numbers: &'a [i64]) -> Self {
        let mut items = Items::none(sys::DS_ITEMS_I64);
        items.0.i64s = numbers.as_ptr();
        items.0.num_i64s = numbers.len();
        items
    }

    /// Returns strings as items.
    #[inline]
    pub fn strings(strings: &'a [Text<'a>]) -> Self {
        let mut items = Items::none(sys::DS_ITEMS_STRINGS);
        items.0.strings = strings.as_ptr() as *const sys::ds_string; // `Text` is `repr(transparent)`
        items.0.num_strings = strings.len();
        items
    }

    /// Returns items that are bytes as a `Hash` feeds them.
    #[inline]
    pub fn fed(pieces: &'a [Text<'a>]) -> Self {
        let mut items = Items::none(sys::DS_ITEMS_FED);
        items.0.fed = pieces.as_ptr() as *const sys::ds_string; // as above
        items.0.num_fed = pieces.len();
        items
    }

    fn in_bytes(kind: i32, bytes: &'a [u8]) -> Self {
        let mut items = Items::none(kind);
        items.0.bytes = bytes.as_ptr();
        items.0.num_bytes = bytes.len();
        items
    }

    pub fn words(text: &'a [u8]) -> Self {
        Items::in_bytes(sys::DS_ITEMS_WORDS, text)
    }

    pub fn lines(text: &'a [u8]) -> Self {
        Items::in_bytes(sys::DS_ITEMS_LINES, text)
    }

    pub fn offsets(bytes: &'a [u8], offsets: &'a [u64]) -> Self {
        let kind = if overlap(bytes, offsets) { OVERLAPPING } else { sys::DS_ITEMS_OFFSETS };
        let mut items = Items::in_bytes(kind, bytes);
        items.0.offsets = offsets.as_ptr();
        items.0.num_offsets = offsets.len();
        items
    }

    pub fn offsets32(bytes: &'a [u8], offsets: &'a [u32]) -> Self {
        let kind = if overlap(bytes, offsets) { OVERLAPPING } else { sys::DS_ITEMS_OFFSETS32 };
        let mut items = Items::in_bytes(kind, bytes);
        items.0.offsets32 = offsets.as_ptr();
        items.0.num_offsets32 = offsets.len();
        items
    }

    /// Returns the items with a bitmap of their rows.
    pub fn with_validity(mut self, validity: &'a [u8], first_bit: usize) -> Self {
        if self.touch(validity) {
            self.0.kind = OVERLAPPING;
        }
        self.0.validity = validity.as_ptr();
        self.0.num_validity = validity.len();
        self.0.first_bit = first_bit;
        self
    }

    /// Returns the number of items. It checks them.
    pub fn count(&self) -> Result<usize, Error> {
        let mut count = 0;
        // SAFETY: the pointers are of slices that are borrowed for `'a`.
        done(unsafe { sys::ds_num_items(&self.0, &mut count) })?;
        Ok(count)
    }

    /// Returns whether the items share a byte with this place.
    pub(super) fn touch<T>(&self, place: &[T]) -> bool {
        let range = place.as_ptr_range();
        let (start, end) = (range.start as usize, range.end as usize);
        let meets = |from: usize, bytes: usize| from < end && start < from.wrapping_add(bytes);
        let plain = &self.0;
        let texts_of = |texts, count| {
            // SAFETY: both members are of a slice that is borrowed for `'a`.
            unsafe { std::slice::from_raw_parts::<'a, sys::ds_string>(texts, count) }.iter()
        };
        let mut texts = texts_of(plain.strings, plain.num_strings).chain(texts_of(plain.fed, plain.num_fed));
        meets(plain.u64s as usize, 8 * plain.num_u64s)
            || meets(plain.i64s as usize, 8 * plain.num_i64s)
            || meets(plain.bytes as usize, plain.num_bytes)
            || meets(plain.offsets as usize, 8 * plain.num_offsets)
            || meets(plain.offsets32 as usize, 4 * plain.num_offsets32)
            || meets(plain.validity as usize, plain.num_validity)
            || texts.any(|text| meets(text.bytes as usize, text.length))
    }

    /// Returns the structure, for the time of a call.
    #[inline]
    pub(super) fn get(&self) -> *const sys::ds_items {
        &self.0
    }
}
