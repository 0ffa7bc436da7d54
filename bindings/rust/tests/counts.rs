//! Count-Min sketches beside a model over `Vec`, and their images byte for byte.

mod model;

use datasketches_rattle::countmin::{CountMinSketch, CountMinValue, CountMinView};
use datasketches_rattle::error::ErrorKind;
use datasketches_rattle::items::{with_validity, words, OffsetStrings};
use datasketches_rattle::{ImageOptions, Shared};
use model::{Chance, Counts};
use std::collections::HashMap;
use std::fmt::Debug;

/// Makes random calls with weights up to a maximum, and compares each result with the model's.
fn random_calls<T: CountMinValue + TryFrom<i64> + Into<i128>>(max: i128, signed: bool)
where
    <T as TryFrom<i64>>::Error: Debug,
{
    for seed in 0..20 {
        let mut chance = Chance::new(seed);
        let (rows, buckets) = (1 + chance.below(5) as u8, 3 + chance.below(40) as u32);
        let mut counts = CountMinSketch::<T>::with_seed(rows, buckets, seed).unwrap();
        let mut model = Counts::new(rows, buckets, seed);
        for _ in 0..150 {
            let (number, string) = (chance.below(50), format!("item {}", chance.below(50)));
            let weight = chance.below(7) as i64 - if signed { 3 } else { 0 };
            let (as_number, value) = (chance.below(2) == 0, T::try_from(weight).unwrap());
            let result = if as_number {
                counts.try_update_with_weight(&number, value)
            } else {
                counts.try_update_with_weight(&string, value)
            };
            if i128::from(weight).abs() + model.total > max {
                assert_eq!(result.unwrap_err().name(), "WeightOverflow");
            } else if as_number {
                model.update(&number, weight.into());
            } else {
                model.update(&string, weight.into());
            }
            let string_estimate: i128 = counts.estimate(&string).into();
            let number_estimate: i128 = counts.estimate(number as i64).into();
            assert_eq!(model.estimate(&string), string_estimate);
            assert_eq!(model.estimate(&number), number_estimate);
            assert_eq!(model.total, counts.total_weight().into());
        }
        let image = counts.serialize();
        assert_eq!(image, model.image());
        assert_eq!(CountMinSketch::<T>::deserialize_with_seed(&image, seed).unwrap(), counts);
    }
}

#[test]
fn random_calls_match_the_model() {
    random_calls::<u64>(u64::MAX.into(), false);
    random_calls::<i64>(i64::MAX.into(), true);
    random_calls::<u8>(u8::MAX.into(), false);
    random_calls::<u16>(u16::MAX.into(), false);
    random_calls::<u32>(u32::MAX.into(), false);
    random_calls::<i8>(i8::MAX.into(), true);
    random_calls::<i16>(i16::MAX.into(), true);
    random_calls::<i32>(i32::MAX.into(), true);
}

#[test]
fn estimates_enclose_exact_counts() {
    let mut chance = Chance::new(5);
    let mut counts = CountMinSketch::<u64>::new(4, 200).unwrap();
    let mut exact = HashMap::new();
    for _ in 0..5000 {
        let (item, weight) = (chance.below(1000), chance.below(9));
        counts.update_with_weight(item, weight);
        *exact.entry(item).or_insert(0) += weight;
    }
    let total = counts.total_weight();
    assert_eq!(total, exact.values().sum::<u64>());
    for (item, weight) in exact {
        let estimate = counts.estimate(item);
        assert!(weight <= estimate && estimate <= total);
        assert_eq!(counts.lower_bound(item), estimate);
        let margin = (u128::from(total) * 2_718_281_828_459_045_235 / 1_000_000_000_000_000_000 / 200) as u64;
        assert_eq!(counts.upper_bound(item), estimate + margin);
        assert_eq!(counts.upper_bound(item.to_string()), counts.estimate(item.to_string()) + margin);
    }
}

#[test]
fn many_items_are_as_single_ones() {
    let mut chance = Chance::new(6);
    let numbers: Vec<u64> = (0..700).map(|_| chance.below(90)).collect();
    let strings: Vec<String> = numbers.iter().map(|_| chance.string()).collect();
    let weights: Vec<u64> = numbers.iter().map(|_| chance.below(90)).collect();
    let signed: Vec<i64> = weights.iter().map(|weight| *weight as i64 - 45).collect();
    let mut counts = CountMinSketch::<u64>::new(3, 64).unwrap();
    let mut with_sign = CountMinSketch::<i64>::new(3, 64).unwrap();
    let (mut model, mut signed_model) = (Counts::new(3, 64, 9001), Counts::new(3, 64, 9001));
    counts.update_all(&numbers).unwrap();
    counts.update_all(&words("a b a")).unwrap();
    counts.update_all_with_weights(&strings, &weights).unwrap();
    counts.update_all_with_weights(&numbers, &numbers).unwrap();
    with_sign.update_all(&strings).unwrap();
    with_sign.update_all_with_weights(&strings, &signed).unwrap();
    with_sign.update_all_with_weights(&numbers, &signed).unwrap();
    with_sign.update_all_with_weights(&signed, &signed).unwrap();
    for i in 0..700 {
        model.update(&numbers[i], 1);
        model.update(&strings[i], weights[i].into());
        model.update(&numbers[i], numbers[i].into());
        signed_model.update(&strings[i], 1);
        signed_model.update(&strings[i], signed[i].into());
        signed_model.update(&numbers[i], signed[i].into());
        signed_model.update(&signed[i], signed[i].into());
    }
    for word in ["a", "b", "a"] {
        model.update(word, 1);
    }
    assert_eq!(counts.serialize(), model.image());
    assert_eq!(with_sign.serialize(), signed_model.image());
    let expected: Vec<u64> = strings.iter().map(|string| model.estimate(string) as u64).collect();
    assert_eq!(counts.estimate_all(&strings).unwrap(), expected);
    assert_eq!(counts.estimate_all(&words("a")).unwrap(), [model.estimate("a") as u64]);
    let error = counts.update_all_with_weights(&strings, &weights[1..]).unwrap_err();
    assert_eq!(error.name(), "NoRoom");
    let nulls = with_validity(&[5u64, 6], &[0b10], 0);
    counts.update_all_with_weights(&nulls, &[100, 200]).unwrap();
    model.update(&6u64, 200);
    let columns = OffsetStrings::new(b"xyz", &[0, 1, 3]);
    counts.update_all(&columns).unwrap();
    model.update("x", 1);
    model.update("yz", 1);
    assert_eq!(counts.serialize(), model.image());
    let mut extended = CountMinSketch::<u64>::new(3, 64).unwrap();
    extended.extend(&numbers);
    let mut extended_model = Counts::new(3, 64, 9001);
    numbers.iter().for_each(|number| extended_model.update(number, 1));
    assert_eq!(extended.serialize(), extended_model.image());
}

#[test]
fn totals_that_overflow_change_nothing() {
    let strings: Vec<String> = (0..300).map(|number| number.to_string()).collect();
    let mut counts = CountMinSketch::<u64>::new(2, 50).unwrap();
    counts.update_with_weight("full", u64::MAX - 299);
    let image = counts.serialize();
    let error = counts.update_all_with_weights(&strings, &[1; 300]).unwrap_err();
    assert_eq!((error.kind(), error.name()), (ErrorKind::InvalidArgument, "WeightOverflow"));
    let mut twice = vec![0; 300];
    twice[0] = u64::MAX;
    twice[299] = u64::MAX;
    assert_eq!(counts.update_all_with_weights(&strings, &twice).unwrap_err().name(), "WeightOverflow");
    assert_eq!(counts.serialize(), image);
    assert_eq!(counts.update_all(&strings).unwrap_err().name(), "WeightOverflow");
    assert_eq!(counts.total_weight(), u64::MAX); // the items before the last are added
    let mut small = CountMinSketch::<u8>::new(2, 50).unwrap();
    assert_eq!(small.update_all(&strings).unwrap_err().name(), "WeightOverflow");
    assert_eq!(
        small.update_all_with_weights(&strings[..2], &[200, 100]).unwrap_err().name(),
        "WeightOverflow"
    );
    assert!(small.is_empty());
    small.update_all_with_weights(&strings[..2], &[200, 55]).unwrap();
    assert_eq!((small.total_weight(), small.upper_bound("0")), (255, 213));
    assert_eq!(small.try_update("0").unwrap_err().name(), "WeightOverflow");
    let other = small.clone();
    assert_eq!(small.merge(&other).unwrap_err().name(), "WeightOverflow");
    assert_eq!(small.merge_all(std::slice::from_ref(&other)).unwrap_err().name(), "WeightOverflow");
    assert_eq!(small, other);
    let image = CountMinSketch::<u16>::deserialize(&small.serialize()).unwrap();
    assert_eq!(image.estimate("0"), 200);
    let error = CountMinSketch::<i8>::deserialize(&small.serialize()).unwrap_err();
    assert_eq!((error.kind(), error.name()), (ErrorKind::InvalidData, "ValueOutOfRange"));
}

/// Returns a number times a factor of at most 1, rounded down: from the last bit of the factor on, the sum so far is halved.
fn scaled(number: u128, factor: f64) -> i128 {
    let (mut rest, mut bits) = (factor, vec![]);
    while rest > 0.0 {
        let bit = rest >= 1.0;
        bits.push(bit);
        rest = (rest - f64::from(u8::from(bit))) * 2.0;
    }
    bits.iter().rev().fold(0, |sum, bit| sum / 2 + if *bit { number } else { 0 }) as i128
}

#[test]
fn merges_halvings_and_decays_match_the_model() {
    let mut chance = Chance::new(7);
    let mut counts = CountMinSketch::<u64>::new(3, 20).unwrap();
    let mut model = Counts::new(3, 20, 9001);
    for _ in 0..50 {
        let (item, weight) = (chance.below(30), chance.word() >> 8);
        counts.update_with_weight(item, weight);
        model.update(&item, weight.into());
    }
    let (start, start_model) = (counts.clone(), model.clone());
    counts.halve();
    model.change(|cell| cell / 2);
    assert_eq!(counts.serialize(), model.image());
    for factor in [1.0, 0.5, 0.99, 0.1, 1e-4, 1e-6, 1e-15, 0.999_999_999, 1.0 - f64::EPSILON / 2.0] {
        let (mut counts, mut model) = (start.clone(), start_model.clone());
        counts.decay(factor);
        model.change(|cell| scaled(cell as u128, factor));
        assert_eq!(counts.serialize(), model.image(), "{}", factor);
    }
    let mut tiny = start.clone();
    tiny.decay(f64::from_bits(1));
    assert!(tiny.is_empty() && tiny.estimate(1u64) == 0);
    counts.update_with_weight("hundred", 100);
    let mut hundred = CountMinSketch::<u64>::new(3, 20).unwrap();
    hundred.update_with_weight("hundred", 100);
    let mut other = hundred.clone();
    hundred.decay(0.99);
    other.decay_by(99, 100).unwrap();
    assert_eq!((hundred.estimate("hundred"), other.estimate("hundred")), (98, 99));
    for (numerator, denominator) in [(0, 1), (2, 1), (1, 0)] {
        assert_eq!(other.decay_by(numerator, denominator).unwrap_err().name(), "BadFraction");
    }
    let (mut merged, mut merged_model) = (start.clone(), start_model.clone());
    merged.merge(&start).unwrap();
    merged += &start;
    merged.merge_all(&[start.clone(), start.clone()]).unwrap();
    merged_model.change(|cell| 5 * cell);
    assert_eq!(merged.serialize(), merged_model.image());
    for other in [(2, 20, 9001), (3, 21, 9001), (3, 20, 9002)] {
        let other = CountMinSketch::<u64>::with_seed(other.0, other.1, other.2).unwrap();
        assert_eq!(merged.merge(&other).unwrap_err().name(), "Mismatch");
    }
    merged.reset();
    assert!(merged.is_empty() && merged != start);
}

#[test]
fn images_are_read_or_rejected() {
    let mut counts = CountMinSketch::<i64>::with_seed(3, 20, 7).unwrap();
    let empty = counts.serialize();
    counts.update_with_weight("a", -3);
    counts.update_with_weight("b", 9);
    let image = counts.serialize();
    assert_eq!(image.len(), counts.serialized_size());
    let options = ImageOptions::new(counts.estimated_size()).seed(7);
    assert_eq!(CountMinSketch::deserialize_with_options(&image, &options).unwrap(), counts);
    let small = ImageOptions::new(counts.estimated_size() - 1).seed(7);
    let error = CountMinSketch::<i64>::deserialize_with_options(&image, &small).unwrap_err();
    assert_eq!((error.kind(), error.name()), (ErrorKind::InvalidData, "TableTooLarge"));
    assert_eq!(CountMinSketch::<i64>::deserialize(&image).unwrap_err().name(), "SeedHashMismatch");
    for length in 0..image.len() {
        let error = CountMinSketch::<i64>::deserialize_with_seed(&image[..length], 7).unwrap_err();
        assert_eq!(error.kind(), ErrorKind::InvalidData);
        assert!(CountMinView::<i64>::with_seed(&image[..length], 7).is_err());
    }
    let view = CountMinView::<i64>::with_seed(&image, 7).unwrap();
    for item in ["a", "b", "c", ""] {
        assert_eq!(view.estimate(item), counts.estimate(item));
        assert_eq!(view.estimate(item.to_string()), counts.estimate(item));
    }
    assert_eq!(view.estimate(7u64), counts.estimate(7u64));
    assert_eq!(CountMinView::<i64>::new(&image).unwrap_err().name(), "SeedHashMismatch");
    let two = [&empty[..], &image].concat();
    let (first, used) = CountMinSketch::<i64>::deserialize_prefix(&two, &options).unwrap();
    let (second, more) = CountMinSketch::<i64>::deserialize_prefix(&two[used..], &options).unwrap();
    assert!(first.is_empty() && second == counts && used + more == two.len());
    let mut chance = Chance::new(8);
    for _ in 0..2000 {
        let mut damaged = image.clone();
        damaged[chance.below(image.len() as u64) as usize] ^= 1 << chance.below(8);
        let options = ImageOptions::new(1 << 20).seed(7);
        if let Ok(read) = CountMinSketch::<i64>::deserialize_with_options(&damaged, &options) {
            assert_eq!(CountMinSketch::deserialize_with_seed(&read.serialize(), 7).unwrap(), read);
        }
    }
}

#[test]
fn numbers_of_a_sketch() {
    let mut counts = CountMinSketch::<u32>::with_seed(3, 20, 7).unwrap();
    assert_eq!((counts.num_hashes(), counts.num_buckets(), counts.seed()), (3, 20, 7));
    assert_eq!(counts.relative_error(), std::f64::consts::E / 20.0);
    assert_eq!(counts.estimated_size(), 8 * 3 * 20 + 8 * 3);
    counts.update("a");
    let expected = "CountMinSketch { num_hashes: 3, num_buckets: 20, seed: 7, total_weight: 1 }";
    assert_eq!(format!("{:?}", counts), expected);
    type Sketch = CountMinSketch<u64>;
    assert_eq!(Sketch::suggest_num_buckets(0.001).unwrap(), 2719);
    assert_eq!(Sketch::suggest_num_buckets(5.0).unwrap(), 3);
    for error in [0.0, -1.0, f64::NAN, f64::INFINITY, 1e-9] {
        assert_eq!(Sketch::suggest_num_buckets(error).unwrap_err().kind(), ErrorKind::InvalidArgument);
    }
    assert_eq!(Sketch::suggest_num_hashes(0.99).unwrap(), 5);
    assert_eq!(Sketch::suggest_num_hashes(0.0).unwrap(), 1);
    assert_eq!(Sketch::suggest_num_hashes(1.0).unwrap(), 127);
    for confidence in [-0.1, 1.1, f64::NAN] {
        assert_eq!(Sketch::suggest_num_hashes(confidence).unwrap_err().name(), "BadNumHashes");
    }
    assert_eq!(Sketch::new(0, 3).unwrap_err().name(), "BadNumHashes");
    assert_eq!(Sketch::new(1, 2).unwrap_err().name(), "BadNumBuckets");
    assert_eq!(Sketch::new(255, u32::MAX).unwrap_err().name(), "TableTooLarge");
    let error = (0..1 << 17).find_map(|seed| Sketch::with_seed(1, 3, seed).err()).unwrap();
    assert_eq!((error.kind(), error.name()), (ErrorKind::InvalidArgument, "ZeroSeedHash"));
}

#[test]
fn threads_read_a_shared_sketch() {
    let mut counts = CountMinSketch::<u64>::new(3, 500).unwrap();
    counts.update_all(&(0..1000u64).collect::<Vec<_>>()).unwrap();
    let shared = Shared::new(counts).unwrap();
    std::thread::scope(|scope| {
        for _ in 0..4 {
            let reader = shared.reader().unwrap();
            scope.spawn(move || {
                assert!((0..1000u64).all(|item| reader.estimate(item) >= 1));
                let mut copy = reader.clone();
                copy.merge(&reader).unwrap();
                assert_eq!(copy.total_weight(), 2000);
            });
        }
    });
    assert_eq!(shared.thaw().unwrap().total_weight(), 1000);
}
