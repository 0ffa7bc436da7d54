//! Allocations of the library that fail: each call returns an error of memory and changes nothing, and no block leaks.
//!
//! The library gets an allocator of this file, which fails one request at will. So this file has one test.

use datasketches_rattle::bloom::{BloomFilter, BloomFilterBuilder};
use datasketches_rattle::countmin::CountMinSketch;
use datasketches_rattle::error::{Error, ErrorKind};
use datasketches_rattle::frequencies::{ErrorType, FrequentItemsSketch};
use datasketches_rattle::items::words;
use datasketches_rattle::{Key, Shared};
use std::ffi::c_void;
use std::panic::{catch_unwind, AssertUnwindSafe};
use std::ptr;
use std::sync::atomic::{AtomicIsize, Ordering::SeqCst};

/// How many requests are served before one fails. Below 0, all are.
static SERVED: AtomicIsize = AtomicIsize::new(-1);

/// The number of blocks that were not freed.
static BLOCKS: AtomicIsize = AtomicIsize::new(0);

#[repr(C)]
struct Allocator {
    allocate: extern "C" fn(*mut c_void, usize) -> *mut c_void,
    reallocate: extern "C" fn(*mut c_void, *mut c_void, usize, usize) -> *mut c_void,
    deallocate: extern "C" fn(*mut c_void, *mut c_void),
    context: *mut c_void,
}

extern "C" {
    fn ds_set_allocator(allocator: *const Allocator) -> i32;
    fn malloc(size: usize) -> *mut c_void;
    fn realloc(block: *mut c_void, size: usize) -> *mut c_void;
    fn free(block: *mut c_void);
}

/// Returns whether this request fails.
fn fails() -> bool {
    let served = SERVED.load(SeqCst);
    SERVED.store(served - isize::from(served >= 0), SeqCst);
    served == 0
}

extern "C" fn allocate(_: *mut c_void, size: usize) -> *mut c_void {
    if fails() {
        return ptr::null_mut();
    }
    BLOCKS.fetch_add(1, SeqCst);
    // SAFETY: the size is above 0.
    unsafe { malloc(size) }
}

extern "C" fn reallocate(_: *mut c_void, block: *mut c_void, _: usize, size: usize) -> *mut c_void {
    if fails() {
        return ptr::null_mut();
    }
    // SAFETY: the library passes a block that it got here.
    unsafe { realloc(block, size) }
}

extern "C" fn deallocate(_: *mut c_void, block: *mut c_void) {
    BLOCKS.fetch_sub(1, SeqCst);
    // SAFETY: as above.
    unsafe { free(block) }
}

/// Makes a call again and again on new sketches, while one request after another fails. Returns how many requests it has.
fn each_failure<S, R>(
    new: impl Fn() -> S,
    image: impl Fn(&S) -> Vec<u8>,
    call: impl Fn(&mut S) -> Result<R, Error>,
) -> isize {
    for request in 0.. {
        let mut sketch = new();
        let before = image(&sketch);
        SERVED.store(request, SeqCst);
        let result = call(&mut sketch);
        let failed = SERVED.swap(-1, SeqCst) < 0;
        match result {
            Err(error) => {
                assert!(failed);
                assert_eq!((error.kind(), error.name()), (ErrorKind::OutOfMemory, "NoMemory"));
                assert_eq!(error.to_string(), "out of memory");
                assert_eq!(image(&sketch), before);
            }
            Ok(_) => {
                assert!(!failed);
                return request;
            }
        }
    }
    unreachable!()
}

fn filter() -> BloomFilter {
    let mut filter = BloomFilterBuilder::with_size(1000, 3).build().unwrap();
    filter.insert("a");
    filter
}

fn counts() -> CountMinSketch<u64> {
    let mut counts = CountMinSketch::new(3, 100).unwrap();
    counts.update("a");
    counts
}

/// Returns a sketch whose table is full.
fn heavy() -> FrequentItemsSketch<String> {
    let mut heavy = FrequentItemsSketch::with_key(64, Key::new(1, 2)).unwrap();
    heavy.update_all(&words("a b c d e f")).unwrap();
    heavy
}

fn whole_calls() {
    let of_filter = BloomFilter::serialize;
    assert!(each_failure(|| (), |_| vec![], |_| BloomFilterBuilder::with_size(1000, 3).build()) > 0);
    assert!(each_failure(|| (), |_| vec![], |_| CountMinSketch::<i8>::new(3, 100)) > 0);
    assert!(each_failure(|| (), |_| vec![], |_| FrequentItemsSketch::<i64>::new(64)) > 0);
    assert!(each_failure(filter, of_filter, |filter| filter.try_clone()) > 0);
    let (others, bytes) = ([filter(), filter()], filter().serialize());
    assert!(each_failure(filter, of_filter, |_| BloomFilter::deserialize(&bytes)) > 0);
    assert!(each_failure(filter, of_filter, |left| left.merge_all(&others)) > 0);
    assert_eq!(each_failure(filter, of_filter, |left| left.try_serialize()), 0);
    assert_eq!(each_failure(filter, of_filter, |left| left.insert_all(&words("b c d"))), 0);
    assert_eq!(each_failure(filter, of_filter, |left| left.contains_and_insert_all(&["b", "a"])), 0);
    let of_counts = CountMinSketch::<u64>::serialize;
    assert!(each_failure(counts, of_counts, |counts| counts.try_clone()) > 0);
    assert_eq!(each_failure(counts, of_counts, |counts| Ok(counts.reset())), 0);
    assert_eq!(each_failure(counts, of_counts, |counts| counts.update_all(&words("b c d"))), 0);
    assert_eq!(each_failure(counts, of_counts, |counts| counts.update_all_with_weights(&["b"], &[3])), 0);
    assert_eq!(each_failure(counts, of_counts, |counts| counts.estimate_all(&words("b c d"))), 0);
}

fn frequent_items() {
    let image = FrequentItemsSketch::<String>::serialize;
    assert!(each_failure(heavy, image, |heavy| heavy.try_update("new")) > 0);
    assert_eq!(each_failure(heavy, image, |heavy| heavy.try_update("a")), 0);
    assert_eq!(each_failure(heavy, image, |heavy| heavy.bounds_all(&["a"])), 0);
    assert!(each_failure(heavy, image, |heavy| heavy.try_clone()) > 0);
    assert!(each_failure(heavy, image, |heavy| heavy.try_frequent_items(ErrorType::NoFalsePositives, 0)) > 0);
    let other = heavy();
    assert!(each_failure(heavy, image, |heavy| heavy.try_merge(&other)) > 0);
    assert!(each_failure(heavy, image, |heavy| heavy.merge_all(std::slice::from_ref(&other))) > 0);
    let bytes = other.serialize();
    assert!(each_failure(|| (), |_| vec![], |_| FrequentItemsSketch::<String>::deserialize(&bytes)) > 0);
}

fn sharing() {
    SERVED.store(0, SeqCst);
    let (sketch, error) = Shared::new(filter_now()).unwrap_err();
    assert_eq!(error.kind(), ErrorKind::OutOfMemory);
    assert!(sketch.contains(&"a"));
    let shared = Shared::new(sketch).unwrap();
    SERVED.store(0, SeqCst);
    assert_eq!(shared.reader().unwrap_err().kind(), ErrorKind::OutOfMemory);
    let reader = shared.reader().unwrap();
    assert!(reader.contains(&"a"));
    drop(reader);
    assert!(shared.thaw().is_ok());
}

/// Returns a filter that was built before the next request fails.
fn filter_now() -> BloomFilter {
    let next = SERVED.swap(-1, SeqCst);
    let filter = filter();
    SERVED.store(next, SeqCst);
    filter
}

fn panics() {
    let mut heavy = heavy();
    let before = heavy.serialize();
    for call in [
        (|heavy| heavy.update("new".to_string())) as fn(&mut FrequentItemsSketch<String>),
        |heavy| heavy.update_ref("new"),
        |heavy| drop(heavy.clone()),
    ] {
        SERVED.store(0, SeqCst);
        let payload = catch_unwind(AssertUnwindSafe(|| call(&mut heavy))).unwrap_err();
        assert_eq!(payload.downcast_ref::<String>().unwrap(), "out of memory");
        assert_eq!(heavy.serialize(), before);
    }
}

#[test]
fn requests_that_fail() {
    let allocator = Allocator { allocate, reallocate, deallocate, context: ptr::null_mut() };
    // SAFETY: no other thread makes a call, and the functions do as those of C.
    assert_eq!(unsafe { ds_set_allocator(&allocator) }, 0);
    whole_calls();
    frequent_items();
    sharing();
    panics();
    assert_eq!(BLOCKS.load(SeqCst), 0);
}
