//! The documented panics: each has its message, and leaves the sketch as it was.

use datasketches_rattle::bloom::BloomFilterBuilder;
use datasketches_rattle::countmin::CountMinSketch;
use datasketches_rattle::frequencies::FrequentItemsSketch;
use std::panic::{catch_unwind, AssertUnwindSafe};

/// Checks that a call panics with a message, and that the sketch has the image that it had.
fn panics<S>(sketch: &mut S, image: fn(&S) -> Vec<u8>, message: &str, call: impl FnOnce(&mut S)) {
    let before = image(sketch);
    let payload = catch_unwind(AssertUnwindSafe(|| call(sketch))).unwrap_err();
    let text =
        payload.downcast_ref::<String>().map(String::as_str).or(payload.downcast_ref::<&str>().copied());
    assert_eq!(text, Some(message));
    assert_eq!(image(sketch), before);
}

#[test]
fn counts_that_overflow() {
    let image = CountMinSketch::<u64>::serialize;
    let message = "total weight overflow";
    let mut counts = CountMinSketch::<u64>::new(2, 10).unwrap();
    counts.update_with_weight("a", u64::MAX);
    let other = counts.clone();
    panics(&mut counts, image, message, |counts| counts.update("b"));
    panics(&mut counts, image, message, |counts| counts.update(1u64));
    panics(&mut counts, image, message, |counts| counts.update_with_weight("b", 1));
    panics(&mut counts, image, message, |counts| counts.extend(["b"]));
    panics(&mut counts, image, message, |counts| *counts += &other);
    counts.update_with_weight("b", 0);

    let image = CountMinSketch::<i64>::serialize;
    let mut signed = CountMinSketch::<i64>::new(2, 10).unwrap();
    panics(&mut signed, image, message, |signed| signed.update_with_weight("a", i64::MIN));
    signed.update_with_weight("a", -i64::MAX);
    panics(&mut signed, image, message, |signed| signed.update_with_weight("b", -1));

    let image = CountMinSketch::<i8>::serialize;
    let mut small = CountMinSketch::<i8>::new(2, 10).unwrap();
    panics(&mut small, image, message, |small| small.update_with_weight("a", i8::MIN));
    small.update_with_weight("a", -100);
    panics(&mut small, image, message, |small| small.update_with_weight("b", 28));
}

#[test]
fn decay_out_of_range() {
    let mut counts = CountMinSketch::<u32>::new(2, 10).unwrap();
    counts.update_with_weight("a", 7);
    for factor in [0.0, -0.5, 1.1, f64::NAN, f64::INFINITY] {
        panics(
            &mut counts,
            CountMinSketch::<u32>::serialize,
            "the fraction is not above 0 and at most 1",
            |counts| counts.decay(factor),
        );
    }
}

#[test]
fn frequent_items_that_overflow() {
    let image = FrequentItemsSketch::<String>::serialize;
    let message = "total weight overflow";
    let mut sketch = FrequentItemsSketch::<String>::new(8).unwrap();
    sketch.update_with_count("a".to_string(), u64::MAX);
    let other = sketch.clone();
    panics(&mut sketch, image, message, |sketch| sketch.update("b".to_string()));
    panics(&mut sketch, image, message, |sketch| sketch.update_with_count("b".to_string(), 1));
    panics(&mut sketch, image, message, |sketch| sketch.update_ref("b"));
    panics(&mut sketch, image, message, |sketch| sketch.update_with_count_ref("b", 1));
    panics(&mut sketch, image, message, |sketch| sketch.extend(["b"]));
    panics(&mut sketch, image, message, |sketch| sketch.merge(&other));
    panics(&mut sketch, image, message, |sketch| *sketch += &other);
    sketch.update_with_count_ref("b", 0);
    assert_eq!(sketch.num_active_items(), 1);
}

#[test]
fn filters_that_do_not_match() {
    let message = "shapes or seeds differ";
    let mut filter = BloomFilterBuilder::with_size(128, 2).build().unwrap();
    filter.insert(1u64);
    let other = BloomFilterBuilder::with_size(128, 2).seed(1).build().unwrap();
    assert!(!filter.is_compatible(&other) && filter.is_compatible(&filter.clone()));
    let image = datasketches_rattle::bloom::BloomFilter::serialize;
    panics(&mut filter, image, message, |filter| *filter |= &other);
    panics(&mut filter, image, message, |filter| *filter &= &other);
    panics(&mut filter, image, message, |filter| *filter -= &other);
}

#[test]
fn a_hash_that_panics_changes_nothing() {
    struct Panics;
    impl std::hash::Hash for Panics {
        fn hash<H: std::hash::Hasher>(&self, state: &mut H) {
            state.write(b"a");
            panic!("no hash");
        }
    }
    let mut filter = BloomFilterBuilder::with_size(128, 2).build().unwrap();
    let image = datasketches_rattle::bloom::BloomFilter::serialize;
    panics(&mut filter, image, "no hash", |filter| filter.insert(Panics));
}
