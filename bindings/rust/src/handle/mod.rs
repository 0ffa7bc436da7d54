//! Handles of the C library, and the calls on them. All `unsafe` of this crate is in this module.
//!
//! The header `datasketches.h` has six rules for callers. The types here keep them:
//!
//! 1. A handle begins as no sketch, is changed by calls alone and is not copied: [`Handle`] has no access to its
//!    word, does not implement `Copy`, and is freed once, by `Drop`. A move of it leaves the old place dead.
//! 2. Pointers come from references and slices, so they are aligned, are not null even without values, and point to
//!    as many values as are passed. Nothing else writes them meanwhile, since they are borrowed. No two arguments
//!    overlap: one of two is `&mut`, or their places are compared first. Buffers are initialized before a call.
//! 3. One call at a time uses a handle: [`Handle`] is not `Sync`, so references to it stay in one thread. No call
//!    runs code of this crate or its caller, so none begins while another runs in the same thread. It is `Send`:
//!    what moves a value to another thread is a lock, a start or a join.
//! 4. No call is made from a signal handler, or in the child of a `fork` that was made during a call: in Rust, who
//!    installs such a handler or forks does so by an `unsafe` call, and answers for it.
//! 5. The library calls the C library's `malloc`, `realloc` and `free`. This crate never sets others.
//! 6. A `bool` of Rust is 0 or 1.

mod count_min;
mod fields;
mod filter;
mod frequent;
mod items;

pub use count_min::Cell;
pub(crate) use filter::{min_num_bits, suggest_num_bits, suggest_num_hashes, Image};
pub(crate) use frequent::suggest_max_map_size;
pub use frequent::Counted;
pub use items::{Items, Text};

use crate::bloom::BloomFilter;
use crate::countmin::{CountMinSketch, CountMinValue};
use crate::error::Error;
use crate::frequencies::{FrequentItemValue, FrequentItemsSketch};
use crate::sys;
use crate::{ImageOptions, Key};
use std::cell::UnsafeCell;
use std::ffi::CStr;
use std::mem::size_of;
use std::os::raw::c_char;
use std::panic::RefUnwindSafe;
use std::ptr;

/// A sketch of the library, or none.
#[repr(transparent)]
pub struct Handle(UnsafeCell<sys::ds_sketch>);

// SAFETY: rule 3 lets another thread use a handle later, with a lock, a start or a join in between.
unsafe impl Send for Handle {}

// No call leaves a sketch half changed, and none panics.
impl RefUnwindSafe for Handle {}

impl Drop for Handle {
    #[inline]
    fn drop(&mut self) {
        // SAFETY: the handle was created as no sketch and changed by calls alone. It is not used again.
        unsafe { sys::ds_free(self.get()) }
    }
}

/// A type that is a handle and no more, as it lies in memory.
///
/// # Safety
///
/// The type is `repr(transparent)` over [`Handle`].
pub unsafe trait Whole {}

// SAFETY: each is `repr(transparent)` over a handle.
unsafe impl Whole for BloomFilter {}
unsafe impl<T: CountMinValue> Whole for CountMinSketch<T> {}
unsafe impl<T: FrequentItemValue> Whole for FrequentItemsSketch<T> {}
const _: () = assert!(size_of::<BloomFilter>() == size_of::<Handle>());
const _: () = assert!(size_of::<CountMinSketch<u8>>() == size_of::<Handle>());
const _: () = assert!(size_of::<FrequentItemsSketch<String>>() == size_of::<Handle>());

/// Returns the result of a call if it was done, or the error of its arguments.
#[inline]
fn done(result: i32) -> Result<i32, Error> {
    if result < 0 {
        Err(Error::of_argument(result))
    } else {
        Ok(result)
    }
}

/// Returns whether two places share a byte.
#[inline]
pub(crate) fn overlap<A, B>(a: &[A], b: &[B]) -> bool {
    let (a, b) = (a.as_ptr_range(), b.as_ptr_range());
    (a.start as usize) < b.end as usize && (b.start as usize) < a.end as usize
}

impl Handle {
    /// Returns the handle that a call fills.
    #[inline]
    fn created(call: impl FnOnce(*mut sys::ds_sketch) -> i32) -> Result<Handle, Error> {
        let handle = Handle(UnsafeCell::new(sys::ds_sketch { sketch: ptr::null_mut() }));
        done(call(handle.get()))?;
        Ok(handle)
    }

    #[inline]
    fn get(&self) -> *mut sys::ds_sketch {
        self.0.get()
    }

    /// Returns the number that a call writes.
    #[inline]
    fn written<T: Default>(&self, call: impl FnOnce(*mut sys::ds_sketch, *mut T) -> i32) -> Result<T, Error> {
        let mut value = T::default();
        done(call(self.get(), &mut value))?;
        Ok(value)
    }

    /// Returns a number that sketches of this kind have.
    #[inline]
    pub(crate) fn number(&self, which: i32) -> u64 {
        // SAFETY: rules 2 and 3 hold, as the module's head says.
        match self.written(|handle, value| unsafe { sys::ds_number(handle, which, value) }) {
            Ok(value) => value,
            Err(error) => unreachable!("sketches of this kind have the number {}: {}", which, error),
        }
    }

    pub(crate) fn memory_bytes(&self) -> usize {
        // SAFETY: as above.
        match self.written(|handle, bytes| unsafe { sys::ds_memory_bytes(handle, bytes) }) {
            Ok(bytes) => bytes,
            Err(error) => unreachable!("a handle has a sketch: {}", error),
        }
    }

    pub(crate) fn try_clone(&self) -> Result<Handle, Error> {
        // SAFETY: the new handle is another one.
        Handle::created(|handle| unsafe { sys::ds_clone(handle, self.get()) })
    }

    pub(crate) fn reset(&mut self) -> Result<(), Error> {
        // SAFETY: rule 3.
        done(unsafe { sys::ds_reset(self.get()) }).map(drop)
    }

    pub(crate) fn merge(&mut self, other: &Handle) -> Result<(), Error> {
        self.join(other, sys::DS_JOIN_MERGE)
    }

    /// Combines the sketch with another, as one of `DS_JOIN_MERGE` and so on says.
    fn join(&mut self, other: &Handle, join: i32) -> Result<(), Error> {
        // SAFETY: the other handle is another one, since this one is `&mut`.
        done(unsafe { sys::ds_join(self.get(), other.get(), join) }).map(drop)
    }

    pub(crate) fn merge_all<S: Whole>(&mut self, others: &[S]) -> Result<(), Error> {
        let handles = others.as_ptr() as *mut sys::ds_sketch;
        // SAFETY: the sketches are handles as they lie in memory, in cells that may be written behind `&`.
        // None is this one, since this one is `&mut`. They are not `Sync`, so no other thread uses them.
        done(unsafe { sys::ds_merge_all(self.get(), handles, others.len()) }).map(drop)
    }

    pub(crate) fn equal(&self, other: &Handle) -> Result<bool, Error> {
        if ptr::eq(self, other) {
            return Ok(true);
        }
        // SAFETY: the handles are two.
        Ok(done(unsafe { sys::ds_equal(self.get(), other.get()) })? > 0)
    }

    pub(crate) fn serialized_size(&self) -> Result<usize, Error> {
        // SAFETY: rules 2 and 3.
        self.written(|handle, bytes| unsafe { sys::ds_serialized_bytes(handle, bytes) })
    }

    pub(crate) fn serialize_into(&self, out: &mut [u8]) -> Result<usize, Error> {
        let (place, room) = (out.as_mut_ptr(), out.len());
        // SAFETY: `place` has room for `room` bytes.
        self.written(|handle, written| unsafe { sys::ds_serialize(handle, place, room, written) })
    }

    pub(crate) fn serialize(&self) -> Result<Vec<u8>, Error> {
        let mut image = zeros(self.serialized_size()?)?;
        self.serialize_into(&mut image)?;
        Ok(image)
    }

    /// Reads a sketch of a kind. Returns it with the number of bytes that its image takes.
    pub(crate) fn read(kind: i32, image: &[u8], options: &ImageOptions) -> Result<(Handle, usize), Error> {
        let key = options.key.map(raw_key);
        let plain = sys::ds_image_options {
            max_bytes: options.max_bytes,
            seed: options.seed,
            key: key.as_ref().map_or(ptr::null(), |key| key as *const sys::ds_key),
        };
        let mut used = 0;
        // SAFETY: `plain` points to a key that lives as long, or to null, which stands for no key.
        let read = |handle| unsafe {
            sys::ds_deserialize_prefix(handle, kind, image.as_ptr(), image.len(), &plain, &mut used)
        };
        let handle = Handle::created(read).map_err(|error| Error::of_data(error.code()))?;
        Ok((handle, used))
    }

    pub(crate) fn freeze(&mut self) -> Result<(), Error> {
        // SAFETY: rule 3.
        done(unsafe { sys::ds_freeze(self.get()) }).map(drop)
    }

    pub(crate) fn share(&self) -> Result<Handle, Error> {
        // SAFETY: the new handle is another one.
        Handle::created(|handle| unsafe { sys::ds_share(handle, self.get()) })
    }

    pub(crate) fn thaw(&mut self) -> Result<bool, Error> {
        // SAFETY: rule 3.
        Ok(done(unsafe { sys::ds_thaw(self.get()) })? > 0)
    }
}

/// Returns `count` values of 0, or an error if there is no memory for them.
pub(crate) fn zeros<T: Clone + Default>(count: usize) -> Result<Vec<T>, Error> {
    let mut values = Vec::new();
    values.try_reserve_exact(count).map_err(Error::no_memory)?;
    values.resize(count, T::default());
    Ok(values)
}

/// Returns a copy of values, or an error if there is no memory for it.
fn copied<T: Clone>(values: &[T]) -> Result<Vec<T>, Error> {
    let mut copy = Vec::new();
    copy.try_reserve_exact(values.len()).map_err(Error::no_memory)?;
    copy.extend_from_slice(values);
    Ok(copy)
}

fn raw_key(key: Key) -> sys::ds_key {
    sys::ds_key { k0: key.k0, k1: key.k1 }
}

/// Returns a string of the library.
fn static_str(text: *const c_char) -> &'static str {
    // SAFETY: the library's strings are static and end in a zero byte.
    unsafe { CStr::from_ptr(text) }.to_str().unwrap_or("?")
}

pub(crate) fn name_of(code: i32) -> &'static str {
    // SAFETY: the call has no rules.
    static_str(unsafe { sys::ds_result_name(code) })
}

pub(crate) fn message_of(code: i32) -> &'static str {
    // SAFETY: the call has no rules.
    static_str(unsafe { sys::ds_result_message(code) })
}

pub(crate) fn version() -> &'static str {
    // SAFETY: the call has no rules.
    static_str(unsafe { sys::ds_version() })
}

pub(crate) fn finished_words(text: &[u8]) -> usize {
    // SAFETY: rule 2.
    unsafe { sys::ds_finished(sys::DS_CHUNK_WORDS, text.as_ptr(), text.len(), 0) }
}

pub(crate) fn finished_lines(text: &[u8]) -> usize {
    // SAFETY: rule 2.
    unsafe { sys::ds_finished(sys::DS_CHUNK_LINES, text.as_ptr(), text.len(), 0) }
}

/// Returns a size for error targets, which one of `DS_SIZE_MAX_MAP_SIZE` and so on names.
fn suggest(size: i32, first: u64, second: u64) -> Result<u64, Error> {
    let mut found = 0;
    // SAFETY: rule 2.
    done(unsafe { sys::ds_suggest(size, first, second, &mut found) })?;
    Ok(found)
}

pub(crate) fn valid_utf8(text: &[u8]) -> usize {
    // SAFETY: rule 2.
    unsafe { sys::ds_valid_utf8(text.as_ptr(), text.len()) }
}

#[inline]
pub(crate) fn keyed_hash(bytes: &[u8], key: Key) -> u64 {
    // SAFETY: rule 2.
    unsafe { sys::ds_keyed_hash(bytes.as_ptr(), bytes.len(), key.k0, key.k1) }
}
