//! Frequent items beside exact counts in a `HashMap`.

mod model;

use datasketches_rattle::error::ErrorKind;
use datasketches_rattle::frequencies::{ErrorType, FrequentItemValue, FrequentItemsSketch, Row};
use datasketches_rattle::items::{lines, words, OffsetStrings};
use datasketches_rattle::{ImageOptions, Key, Shared};
use model::Chance;
use std::collections::HashMap;
use std::fmt::Debug;

const KEY: Key = Key::new(1, 2);

/// Checks the bounds of all items, and both reports, against exact weights.
fn check<T: FrequentItemValue + Debug>(sketch: &FrequentItemsSketch<T>, exact: &HashMap<T, u64>) {
    let error = sketch.maximum_error();
    assert_eq!(sketch.total_weight(), exact.values().sum::<u64>());
    for (item, weight) in exact {
        let (lower, upper) = (sketch.lower_bound(item), sketch.upper_bound(item));
        assert!(lower <= *weight && *weight <= upper && upper - lower == error);
        assert_eq!(sketch.estimate(item), if lower > 0 { upper } else { 0 });
    }
    for threshold in [0, error, error + 10, u64::MAX] {
        let all = sketch.frequent_items_with_threshold(ErrorType::NoFalseNegatives, threshold);
        let sure = sketch.frequent_items_with_threshold(ErrorType::NoFalsePositives, threshold);
        let limit = threshold.max(error);
        for (item, weight) in exact {
            assert!(*weight <= limit || all.iter().any(|row| row.item() == item), "{:?} is missing", item);
        }
        for row in sure.iter().chain(&all) {
            assert_eq!(row.lower_bound(), sketch.lower_bound(row.item()));
            assert_eq!(row.upper_bound(), sketch.upper_bound(row.item()));
            assert_eq!(row.estimate(), row.upper_bound());
        }
        assert!(sure.iter().all(|row| row.lower_bound() > limit && exact[row.item()] > limit));
        for rows in [&all, &sure] {
            assert!(rows.windows(2).all(|pair| pair[0].estimate() >= pair[1].estimate()));
        }
    }
    assert_eq!(sketch.frequent_items(ErrorType::NoFalseNegatives).len(), sketch.num_active_items());
}

/// Makes random calls on items that a function makes of numbers.
fn random_calls<T: FrequentItemValue + Debug>(item_of: impl Fn(u64) -> T) {
    for seed in 0..10 {
        let mut chance = Chance::new(seed);
        let mut sketch = FrequentItemsSketch::<T>::with_key(16, Key::new(seed, 5)).unwrap();
        let mut other = FrequentItemsSketch::<T>::new(32).unwrap();
        let mut exact = HashMap::new();
        for _ in 0..300 {
            let rank = 1 + chance.below(20);
            let (item, weight) = (item_of(chance.below(rank * rank)), chance.below(9));
            match chance.below(4) {
                0 => other.update_with_count(item.clone(), weight),
                1 => sketch.update_with_count(item.clone(), weight),
                2 => sketch.try_update_with_count(&item, weight).unwrap(),
                _ => sketch.update_with_count_ref(&item, weight),
            }
            *exact.entry(item).or_insert(0) += weight;
        }
        sketch.merge(&other);
        check(&sketch, &exact);
        let image = sketch.serialize();
        assert_eq!(Some(image.len()), sketch.serialized_size().ok());
        let read = FrequentItemsSketch::<T>::deserialize(&image).unwrap();
        check(&read, &exact);
        let mut copy = sketch.clone();
        copy.reset();
        assert!(copy.is_empty() && copy.max_map_size() == 16);
        copy.merge_all(&[sketch.clone(), read]).unwrap();
        check(&copy, &exact.into_iter().map(|(item, weight)| (item, 2 * weight)).collect());
    }
}

#[test]
fn random_calls_enclose_exact_counts() {
    random_calls::<u64>(|number| number.wrapping_mul(u64::MAX / 7));
    random_calls::<i64>(|number| number as i64 - 50);
    random_calls::<String>(|number| "wörd".repeat(number as usize % 5) + &number.to_string());
}

#[test]
fn many_items_are_as_single_ones() {
    let mut chance = Chance::new(3);
    let numbers: Vec<u64> = (0..1000).map(|_| chance.below(80)).collect();
    let strings: Vec<String> = numbers.iter().map(|number| format!("item {}", number)).collect();
    let counts: Vec<u64> = numbers.iter().map(|_| chance.below(5)).collect();
    let mut all = FrequentItemsSketch::<String>::with_key(64, KEY).unwrap();
    let mut single = FrequentItemsSketch::<String>::with_key(64, KEY).unwrap();
    all.update_all(&strings).unwrap();
    all.update_all_with_counts(&strings, &counts).unwrap();
    all.update_all(&words("to be or not to be")).unwrap();
    all.update_all(&lines("a line\nto")).unwrap();
    all.update_all(&OffsetStrings::new(b"tobe", &[0, 2, 4])).unwrap();
    for string in &strings {
        single.update_ref(&string[..]);
    }
    for (string, count) in strings.iter().zip(&counts) {
        single.update_with_count(string.clone(), *count);
    }
    single.extend(["to", "be", "or", "not", "to", "be", "a line", "to"]);
    single.extend(["to".to_string(), "be".to_string()]);
    assert_eq!(all.serialize(), single.serialize());
    let asked = ["to", "be", "nothing"];
    let bounds = all.bounds_all(&asked).unwrap();
    for (item, bounds) in asked.iter().zip(bounds) {
        assert_eq!(all.bounds(*item), bounds);
        assert_eq!(bounds.lower_bound, all.lower_bound(*item));
        assert_eq!((bounds.estimate, bounds.upper_bound), (all.estimate(*item), all.upper_bound(*item)));
    }
    assert_eq!(all.update_all_with_counts(&asked, &counts).unwrap_err().name(), "NoRoom");
    let mut of_numbers = FrequentItemsSketch::<u64>::with_key(64, KEY).unwrap();
    let mut one_by_one = FrequentItemsSketch::<u64>::with_key(64, KEY).unwrap();
    of_numbers.update_all(&numbers).unwrap();
    of_numbers.update_all_with_counts(&numbers, &numbers).unwrap();
    one_by_one.extend(&numbers);
    for number in &numbers {
        one_by_one.update_with_count(*number, *number);
    }
    assert_eq!(of_numbers.serialize(), one_by_one.serialize());
}

#[test]
fn totals_that_overflow_change_nothing() {
    let strings: Vec<String> = (0..300).map(|number| number.to_string()).collect();
    let mut sketch = FrequentItemsSketch::<String>::new(1024).unwrap();
    sketch.update_with_count("full".to_string(), u64::MAX - 299);
    let image = sketch.serialize();
    let error = sketch.update_all_with_counts(&strings, &[1; 300]).unwrap_err();
    assert_eq!((error.kind(), error.name()), (ErrorKind::InvalidArgument, "WeightOverflow"));
    assert_eq!(sketch.serialize(), image);
    assert_eq!(sketch.update_all(&strings).unwrap_err().name(), "WeightOverflow");
    assert_eq!(sketch.num_active_items(), 300); // the items before the last are added
    assert_eq!(sketch.try_update("more").unwrap_err().name(), "WeightOverflow");
    let other = sketch.clone();
    assert_eq!(sketch.try_merge(&other).unwrap_err().name(), "WeightOverflow");
    assert_eq!(sketch.merge_all(&[other]).unwrap_err().name(), "WeightOverflow");
    assert_eq!(sketch.total_weight(), u64::MAX);
}

#[test]
fn long_strings_are_reported() {
    let mut sketch = FrequentItemsSketch::<String>::new(8).unwrap();
    let long = "long ".repeat(100_000);
    sketch.update_with_count_ref(&long[..], 3);
    sketch.update_ref("");
    let rows = sketch.frequent_items(ErrorType::NoFalsePositives);
    let rows: Vec<(String, u64)> = rows.into_iter().map(|row| (row.item().clone(), row.estimate())).collect();
    assert_eq!(rows, [(long.clone(), 3), (String::new(), 1)]);
    assert_eq!(sketch.estimate(&long), 3);
    assert!(sketch.estimated_size() > long.len());
    let limit = sketch.estimated_size() + 100;
    let image = sketch.serialize();
    assert_eq!(
        FrequentItemsSketch::<String>::deserialize_with_limit(&image, limit).unwrap().estimate(&long),
        3
    );
    let error = FrequentItemsSketch::<String>::deserialize_with_limit(&image, limit - 200).unwrap_err();
    assert_eq!((error.kind(), error.name()), (ErrorKind::InvalidData, "TableTooLarge"));
}

#[test]
fn borrowed_items_are_the_owned_ones() {
    let mut sketch = FrequentItemsSketch::<String>::new(8).unwrap();
    let name = "a name".to_string();
    sketch.update_ref("a name");
    sketch.update_ref(&name);
    sketch.try_update("a name").unwrap();
    sketch.update(name.clone());
    assert_eq!((sketch.estimate("a name"), sketch.estimate(&name)), (4, 4));
}

#[test]
fn images_are_read_or_rejected() {
    let mut sketch = FrequentItemsSketch::<i64>::with_key(16, KEY).unwrap();
    let empty = sketch.serialize();
    for number in -5..5 {
        sketch.update_with_count(number, 10 + number as u64 % 7);
    }
    let image = sketch.serialize();
    for length in 0..image.len() {
        let error = FrequentItemsSketch::<i64>::deserialize(&image[..length]).unwrap_err();
        assert_eq!(error.kind(), ErrorKind::InvalidData);
    }
    let options = ImageOptions::new(1 << 20).key(KEY);
    let read = FrequentItemsSketch::<i64>::deserialize_with_options(&image, &options).unwrap();
    assert_eq!(read.serialize(), image);
    let as_u64 = FrequentItemsSketch::<u64>::deserialize_with_options(&image, &options).unwrap();
    assert_eq!(as_u64.estimate(&(-5i64 as u64)), read.estimate(&-5));
    let two = [&empty[..], &image].concat();
    let (first, used) = FrequentItemsSketch::<i64>::deserialize_prefix(&two, &options).unwrap();
    let (second, more) = FrequentItemsSketch::<i64>::deserialize_prefix(&two[used..], &options).unwrap();
    assert!(first.is_empty() && second.serialize() == image && used + more == two.len());
    let mut chance = Chance::new(8);
    for _ in 0..2000 {
        let mut damaged = image.clone();
        damaged[chance.below(image.len() as u64) as usize] ^= 1 << chance.below(8);
        let _ = FrequentItemsSketch::<String>::deserialize_with_options(&damaged, &options);
        if let Ok(read) = FrequentItemsSketch::<i64>::deserialize_with_options(&damaged, &options) {
            FrequentItemsSketch::<i64>::deserialize_with_options(&read.serialize(), &options).unwrap();
        }
    }
}

#[test]
fn numbers_of_a_sketch() {
    let mut sketch = FrequentItemsSketch::<u64>::new(1024).unwrap();
    assert_eq!((sketch.max_map_size(), sketch.lg_max_map_size(), sketch.lg_cur_map_size()), (1024, 10, 3));
    assert_eq!((sketch.maximum_map_capacity(), sketch.current_map_capacity()), (768, 6));
    assert_eq!((sketch.sample_size(), sketch.epsilon()), (768, 3.5 / 1024.0));
    assert!(sketch.is_empty());
    sketch.extend(0..7u64);
    assert_eq!((sketch.lg_cur_map_size(), sketch.num_active_items(), sketch.total_weight()), (4, 7, 7));
    let expected =
        "FrequentItemsSketch { max_map_size: 1024, num_active_items: 7, total_weight: 7, maximum_error: 0 }";
    assert_eq!(format!("{:?}", sketch), expected);
    sketch.set_sample_size(10).unwrap();
    assert_eq!(sketch.sample_size(), 10);
    assert_eq!(sketch.set_sample_size(11).unwrap_err().name(), "BadSampleSize");
    type Sketch = FrequentItemsSketch<u64>;
    for (size, name) in [(0, "PowerOfTwo"), (7, "PowerOfTwo"), (4, "TooSmall"), (1 << 31, "TooLarge")] {
        assert!(Sketch::new(size).unwrap_err().name().ends_with(name));
        assert!(Sketch::epsilon_for_max_map_size(size).unwrap_err().name().ends_with(name));
        assert!(Sketch::apriori_error(size, 1).unwrap_err().name().ends_with(name));
    }
    for size in (3..31).map(|lg| 1 << lg) {
        assert_eq!(Sketch::epsilon_for_max_map_size(size).unwrap(), 3.5 / size as f64);
        assert_eq!(Sketch::new(size).unwrap().lg_max_map_size(), size.trailing_zeros() as u8);
    }
    assert_eq!(Sketch::apriori_error(1024, 10_000).unwrap(), 3.5 / 1024.0 * 10_000.0);
    assert_eq!(Sketch::suggest_max_map_size(384).unwrap(), 1024);
    assert_eq!(Sketch::suggest_max_map_size(513).unwrap_err().name(), "MapSizeTooLarge");
    assert_eq!(Sketch::with_sizes(64, 48, None).unwrap().sample_size(), 48);
    assert_eq!(Sketch::with_sizes(64, 50, None).unwrap_err().name(), "BadSampleSize");
    let row: Row<u64> = sketch.frequent_items(ErrorType::NoFalsePositives).remove(0);
    let copy = row.clone();
    assert_eq!(row, copy);
    assert_eq!(format!("{}", row), format!("{} 1 1 1", row.item()));
    assert_eq!(copy.into_item(), *row.item());
}

#[test]
fn runs_under_one_key_are_equal() {
    let run = |key| {
        let mut sketch = FrequentItemsSketch::<u64>::with_key(32, key).unwrap();
        sketch.update_all(&(0..1000).map(|number| number * number % 97).collect::<Vec<u64>>()).unwrap();
        sketch.serialize()
    };
    assert_eq!(run(KEY), run(KEY));
    assert_ne!(run(KEY), run(Key::new(3, 4)));
}

#[test]
fn threads_read_a_shared_sketch() {
    let mut sketch = FrequentItemsSketch::<String>::new(64).unwrap();
    sketch.update_all(&words("to be or not to be")).unwrap();
    let shared = Shared::new(sketch).unwrap();
    std::thread::scope(|scope| {
        for _ in 0..4 {
            scope.spawn(|| {
                let reader = shared.reader().unwrap();
                assert_eq!(reader.estimate("be"), 2);
                assert_eq!(reader.frequent_items(ErrorType::NoFalsePositives).len(), 4);
                let mut sum = FrequentItemsSketch::new(64).unwrap();
                sum += &*reader;
                assert_eq!(sum.estimate("to"), 2);
            });
        }
    });
    assert_eq!(shared.thaw().unwrap().estimate("or"), 1);
}
