//! A program for the published crate: it names that crate and uses each of its calls.

use datasketches::bloom::{BloomFilter, BloomFilterBuilder};
use datasketches::countmin::{CountMinSketch, CountMinValue, UnsignedCountMinValue};
use datasketches::error::{Error, ErrorKind};
use datasketches::frequencies::{ErrorType, FrequentItemValue, FrequentItemsSketch, Row};
use std::fmt::Debug;

fn filters() -> Result<(), Error> {
    let mut filter: BloomFilter = BloomFilterBuilder::with_accuracy(1000, 0.01).seed(123).build()?;
    filter.insert("apple");
    filter.insert(42_u64);
    filter.insert(&[1, 2, 3]);
    filter.insert(("a tuple", 7u8));
    assert!(filter.contains(&"apple") && filter.contains::<u64>(&42) && !filter.contains(&"pear"));
    assert!(!filter.contains_and_insert(&"fig") && filter.contains_and_insert(&"fig"));
    let (k, bits, size): (u16, u64, usize) = (filter.num_hashes(), filter.bits_used(), filter.capacity());
    assert!(k == 7 && bits > 0 && size == 9600 && filter.seed() == 123 && !filter.is_empty());
    assert!(filter.load_factor() < 0.01 && filter.estimated_fpp() < 1e-9 && filter.estimated_size() == 1200);
    let bytes: Vec<u8> = filter.serialize();
    let mut restored = BloomFilter::deserialize(&bytes)?;
    assert_eq!(restored, filter);
    assert!(restored.is_compatible(&filter));
    restored.union(&filter)?;
    restored.intersect(&filter)?;
    restored.difference(&filter)?;
    assert!(restored.is_empty());
    let mut copy = filter.clone();
    copy.reset();
    let sized = BloomFilterBuilder::with_size(10_000, 7).clone().build()?;
    let error: Error = copy.union(&sized).unwrap_err();
    assert_eq!(error.kind(), ErrorKind::InvalidArgument);
    println_debug(&sized);
    Ok(())
}

fn counts<T>(one: T, two: T) -> Result<(), Error>
where
    T: CountMinValue + Debug,
{
    let mut counts = CountMinSketch::<T>::new(4, 128)?;
    counts.update("apple");
    counts.update(&7u16);
    counts.update_with_weight("apple", one);
    assert_eq!(counts.estimate("apple"), two);
    assert_eq!(counts.lower_bound("apple"), two);
    assert!(counts.upper_bound("apple") >= one + one);
    assert_eq!((counts.num_hashes(), counts.num_buckets(), counts.seed()), (4u8, 128u32, 9001u64));
    assert!(counts.total_weight() > two && !counts.is_empty() && counts.relative_error() < 0.03);
    let bytes: Vec<u8> = counts.serialize();
    assert_eq!(CountMinSketch::<T>::deserialize(&bytes)?, counts);
    let other = CountMinSketch::<T>::with_seed(4, 128, 42)?;
    assert_eq!(counts.merge(&other).unwrap_err().kind(), ErrorKind::InvalidArgument);
    let kind = CountMinSketch::<T>::deserialize_with_seed(&bytes, 42).unwrap_err().kind();
    assert_eq!(kind, ErrorKind::InvalidData);
    counts.merge(&counts.clone())?;
    assert!(counts.estimated_size() > 0);
    println_debug(&counts);
    Ok(())
}

fn decay<T: UnsignedCountMinValue + Debug>(one: T, hundred: T) -> Result<(), Error> {
    let buckets = CountMinSketch::<T>::suggest_num_buckets(0.01)?;
    let hashes = CountMinSketch::<T>::suggest_num_hashes(0.99)?;
    let mut counts = CountMinSketch::<T>::new(hashes, buckets)?;
    counts.update_with_weight("apple", hundred);
    counts.halve();
    counts.decay(0.99);
    counts.decay(1.0);
    assert!(counts.estimate("apple") < hundred && counts.estimate("apple") > one);
    Ok(())
}

fn frequent<T: FrequentItemValue + Debug>(a: T, b: T) -> Result<(), Error> {
    let mut sketch = FrequentItemsSketch::<T>::new(64)?;
    sketch.update(a.clone());
    sketch.update_with_count(b.clone(), 3);
    let mut other = FrequentItemsSketch::<T>::new(128)?;
    other.update(b.clone());
    sketch.merge(&other);
    assert_eq!((sketch.estimate(&b), sketch.lower_bound(&a), sketch.upper_bound(&a)), (4, 1, 1));
    assert_eq!((sketch.total_weight(), sketch.num_active_items(), sketch.maximum_error()), (5, 2, 0));
    assert!(!sketch.is_empty() && sketch.epsilon() == 3.5 / 64.0);
    assert_eq!((sketch.maximum_map_capacity(), sketch.current_map_capacity()), (48, 6));
    assert_eq!((sketch.max_map_size(), sketch.lg_max_map_size(), sketch.lg_cur_map_size()), (64, 6, 3));
    assert_eq!(FrequentItemsSketch::<T>::epsilon_for_max_map_size(64)?, 3.5 / 64.0);
    assert_eq!(FrequentItemsSketch::<T>::apriori_error(64, 64)?, 3.5);
    let rows: Vec<Row<T>> = sketch.frequent_items(ErrorType::NoFalseNegatives);
    assert_eq!((rows.len(), rows[0].item(), rows[0].estimate()), (2, &b, 4));
    let rows = sketch.frequent_items_with_threshold(ErrorType::NoFalsePositives, 2);
    assert_eq!((rows.len(), rows[0].lower_bound(), rows[0].upper_bound()), (1, 4, 4));
    let restored = FrequentItemsSketch::<T>::deserialize(&sketch.serialize())?;
    assert_eq!(restored.estimate(&a), 1);
    let mut copy = restored.clone();
    copy.reset();
    assert!(copy.is_empty() && copy.estimated_size() > 0);
    println_debug(&copy);
    Ok(())
}

fn println_debug<T: Debug>(value: &T) {
    assert!(!format!("{:?}", value).is_empty());
}

fn main() -> Result<(), Box<dyn std::error::Error + Send + Sync>> {
    filters()?;
    counts(1i8, 2)?;
    counts(1i16, 2)?;
    counts(1i32, 2)?;
    counts(1i64, 2)?;
    counts(1u8, 2)?;
    counts(1u16, 2)?;
    counts(1u32, 2)?;
    counts(1u64, 2)?;
    decay(1u8, 100)?;
    decay(1u64, 100)?;
    frequent(-1i64, 2)?;
    frequent(1u64, 2)?;
    frequent("one".to_string(), "two".to_string())?;
    let mut names = FrequentItemsSketch::<String>::new(64)?;
    names.update_ref("nginx");
    names.update_with_count_ref("nginx", 2);
    assert_eq!(names.estimate("nginx"), 3);
    println!("the program ran");
    Ok(())
}
