//! Filters beside a model over `Vec`, and their images byte for byte.

mod model;

use datasketches_rattle::bloom::{BloomFilter, BloomFilterBuilder, BloomFilterView};
use datasketches_rattle::error::ErrorKind;
use datasketches_rattle::items::{lines, with_validity, words, OffsetStrings, OffsetStrings32};
use datasketches_rattle::{keyed_hash, ImageOptions, Key, Shared};
use model::{Chance, Filter};
use std::collections::HashSet;

fn both(num_words: usize, num_hashes: u16, seed: u64) -> (BloomFilter, Filter) {
    let builder = BloomFilterBuilder::with_size(64 * num_words as u64 - 1, num_hashes).seed(seed);
    (builder.build().unwrap(), Filter::new(num_words, num_hashes, seed))
}

#[test]
fn random_calls_match_the_model() {
    for seed in 0..20 {
        let mut chance = Chance::new(seed);
        let (mut filter, mut model) = both(1 + chance.below(20) as usize, 1 + chance.below(9) as u16, seed);
        let mut inserted = HashSet::new();
        for _ in 0..100 {
            let (number, string) = (chance.word(), chance.string());
            assert_eq!(filter.contains(&number), model.contains(&number));
            assert_eq!(filter.contains(&string), model.contains(&string));
            match chance.below(4) {
                0 => filter.insert(number),
                1 => assert_eq!(filter.contains_and_insert(&number), model.contains(&number)),
                2 => filter.try_insert(&(number as i64)).unwrap(),
                _ => filter.insert(number as usize),
            }
            model.insert(&number);
            filter.insert(&string[..]);
            model.insert(&string);
            inserted.insert(string);
        }
        assert!(inserted.iter().all(|string| filter.contains(string)));
        assert_eq!(filter.serialize(), model.image());
        assert_eq!(filter.bits_used(), model.bits_used());
    }
}

#[test]
fn sets_combine_as_words() {
    let mut chance = Chance::new(1);
    let (mut left, mut left_model) = both(9, 3, 5);
    let (mut right, mut right_model) = both(9, 3, 5);
    for _ in 0..40 {
        let (a, b) = (chance.word(), chance.word());
        left.insert(a);
        left_model.insert(&a);
        right.insert(b);
        right_model.insert(&b);
    }
    type Combine = (fn(&mut BloomFilter, &BloomFilter), fn(u64, u64) -> u64);
    let combines: [Combine; 7] = [
        (|a, b| a.union(b).unwrap(), |a, b| a | b),
        (|a, b| a.intersect(b).unwrap(), |a, b| a & b),
        (|a, b| a.difference(b).unwrap(), |a, b| a & !b),
        (|a, b| *a |= b, |a, b| a | b),
        (|a, b| *a &= b, |a, b| a & b),
        (|a, b| *a -= b, |a, b| a & !b),
        (|a, b| a.merge_all(&[b.clone(), b.clone()]).unwrap(), |a, b| a | b),
    ];
    for (combine, model) in combines {
        let (mut filter, mut words) = (left.clone(), left_model.clone());
        combine(&mut filter, &right);
        for (word, other) in words.words.iter_mut().zip(&right_model.words) {
            *word = model(*word, *other);
        }
        assert_eq!(filter.serialize(), words.image());
    }
    let other = BloomFilterBuilder::with_size(64, 3).seed(5).build().unwrap();
    for error in
        [left.union(&other), left.intersect(&other), left.difference(&other), left.merge_all(&[right, other])]
    {
        assert_eq!(error.unwrap_err().name(), "Mismatch");
    }
    assert_eq!(left.serialize(), left_model.image());
}

#[test]
fn many_items_are_as_single_ones() {
    let mut chance = Chance::new(2);
    let numbers: Vec<u64> = (0..1000).map(|_| chance.below(600)).collect();
    let signed: Vec<i64> = numbers.iter().map(|number| *number as i64 - 300).collect();
    let sizes: Vec<usize> = numbers.iter().map(|number| *number as usize + 1000).collect();
    let strings: Vec<String> = numbers.iter().map(|_| chance.string()).collect();
    let borrowed: Vec<&str> = strings.iter().map(String::as_str).collect();
    let (mut all, mut model) = both(300, 5, 3);
    let before = all.contains_and_insert_all(&numbers).unwrap();
    for (number, before) in numbers.iter().zip(before) {
        assert_eq!(model.contains(number), before);
        model.insert(number);
    }
    all.insert_all(&signed).unwrap();
    all.insert_all(&sizes[..]).unwrap();
    all.insert_all(&strings).unwrap();
    all.insert_all(&borrowed[..500]).unwrap();
    all.insert_all(&[1u64, 2, 3]).unwrap();
    all.insert_all::<[u64]>(&[]).unwrap();
    for (number, string) in signed.iter().zip(&strings) {
        model.insert(number);
        model.insert(string);
    }
    for number in &sizes {
        model.insert(number);
    }
    model.insert(&1u64);
    model.insert(&2u64);
    model.insert(&3u64);
    assert_eq!(all.serialize(), model.image());

    let asked: Vec<String> = (0..400).map(|_| chance.string()).collect();
    let expected: Vec<bool> = asked.iter().map(|string| model.contains(string)).collect();
    assert_eq!(all.contains_all(&asked).unwrap(), expected);
    let image = all.serialize();
    let view = BloomFilterView::new(&image).unwrap();
    assert_eq!(view.contains_all(&asked).unwrap(), expected);
    assert_eq!(view.contains_all(&numbers).unwrap(), vec![true; 1000]);
    for string in &asked {
        assert_eq!(view.contains(string), model.contains(string));
    }
    let mut short = [true; 3];
    assert_eq!(all.contains_all_into(&asked, &mut short).unwrap_err().name(), "NoRoom");
    assert_eq!(all.contains_and_insert_all_into(&words("a b"), &mut short).unwrap_err().name(), "NoRoom");
    assert_eq!(all.serialize(), image);
    all.contains_and_insert_all_into(&asked, &mut vec![false; 400]).unwrap();
    assert!(all.contains_all(&asked).unwrap().into_iter().all(|found| found));
    let mut extended = BloomFilterBuilder::with_size(19_200, 5).seed(3).build().unwrap();
    extended.extend(&numbers);
    extended.extend(strings.iter().map(|string| string as &str));
    assert!(extended.contains_all(&numbers).unwrap().into_iter().all(|found| found));
    assert!(extended.contains_all(&strings).unwrap().into_iter().all(|found| found));
}

#[test]
fn texts_and_columns_are_items() {
    let (mut filter, mut model) = both(30, 4, 3);
    filter.insert_all(&words("to be\tor  not")).unwrap();
    filter.insert_all(&lines(b"one line\r\n\ntwo")).unwrap();
    for item in ["to", "be", "or", "not", "one line", "", "two"] {
        model.insert(item);
    }
    assert_eq!(filter.serialize(), model.image());
    assert_eq!(filter.contains_all(&words("to do")).unwrap(), [true, false]);
    assert_eq!(filter.insert_all(&words(b"a \xff")).unwrap_err().name(), "InvalidUtf8");

    let strings = OffsetStrings::new(b"applepear", &[0, 5, 5, 9]);
    filter.insert_all(&strings).unwrap();
    assert_eq!(filter.contains_all(&OffsetStrings32::new(b"pearapple", &[0, 4, 9])).unwrap(), [true, true]);
    let error = filter.insert_all(&OffsetStrings::new(b"apple", &[0, 6])).unwrap_err();
    assert_eq!((error.kind(), error.name()), (ErrorKind::InvalidArgument, "BadOffsets"));

    let (mut filter, mut model) = both(30, 4, 3);
    let numbers = [1u64, 2, 3];
    filter.insert_all(&with_validity(&numbers, &[0b1010], 1)).unwrap();
    filter.insert_all(&with_validity(&strings, &[0b001], 0)).unwrap();
    for item in [1u64, 3] {
        model.insert(&item);
    }
    model.insert("apple");
    assert_eq!(filter.serialize(), model.image());
    let found = filter.contains_all(&with_validity(&numbers, &[0b011], 0)).unwrap();
    assert_eq!(found, [true, false, false]);
    let error = filter.insert_all(&with_validity(&[1i64; 9], &[0xff], 0)).unwrap_err();
    assert_eq!(error.name(), "BadArgument");
    let bytes = *b"applepear";
    let strings = OffsetStrings::new(&bytes, &[0, 5, 9]);
    let error = filter.insert_all(&with_validity(&strings, &bytes[8..], 0)).unwrap_err();
    assert_eq!(error.name(), "BadArgument");
}

#[test]
fn images_are_read_or_rejected() {
    let mut chance = Chance::new(4);
    let (mut filter, _) = both(40, 4, 3);
    let empty = filter.serialize();
    assert_eq!(BloomFilter::deserialize(&empty).unwrap(), filter);
    for _ in 0..200 {
        filter.insert(chance.word());
    }
    let image = filter.serialize();
    assert_eq!(image.len(), filter.serialized_size());
    assert_eq!(BloomFilter::deserialize(&image).unwrap(), filter);
    for length in 0..image.len() {
        assert_eq!(BloomFilter::deserialize(&image[..length]).unwrap_err().kind(), ErrorKind::InvalidData);
        assert_eq!(BloomFilterView::new(&image[..length]).unwrap_err().kind(), ErrorKind::InvalidData);
    }
    for _ in 0..2000 {
        let mut damaged = image.clone();
        let place = chance.below(image.len() as u64) as usize;
        damaged[place] ^= 1 << chance.below(8);
        if let Ok(read) = BloomFilter::deserialize_with_limit(&damaged, 1 << 20) {
            assert_eq!(BloomFilter::deserialize(&read.serialize()).unwrap(), read);
        }
    }
    assert_eq!(BloomFilter::deserialize_with_limit(&image, 319).unwrap_err().name(), "TableTooLarge");
    assert_eq!(BloomFilter::deserialize_with_limit(&image, 320).unwrap(), filter);
    let two = [&image[..], &empty, &[7]].concat();
    let (first, used) = BloomFilter::deserialize_prefix(&two, &ImageOptions::default()).unwrap();
    let (second, more) = BloomFilter::deserialize_prefix(&two[used..], &ImageOptions::default()).unwrap();
    assert!(first == filter && second.is_empty() && used + more == two.len() - 1);
    let mut room = vec![7; image.len() + 1];
    assert_eq!(filter.serialize_into(&mut room[..9]).unwrap_err().name(), "NoRoom");
    assert_eq!(filter.serialize_into(&mut room).unwrap(), image.len());
    assert_eq!((&room[..image.len()], room[image.len()]), (&image[..], 7));
}

#[test]
fn items_may_lie_in_a_view() {
    let mut filter = BloomFilterBuilder::with_size(1 << 12, 3).build().unwrap();
    let text = "these bytes follow the image";
    filter.insert(text);
    filter.insert(text.len());
    let bytes = [&filter.serialize()[..], text.as_bytes()].concat();
    let item = std::str::from_utf8(&bytes[bytes.len() - text.len()..]).unwrap();
    let view = BloomFilterView::new(&bytes).unwrap();
    assert!(view.contains(item) && !view.contains(&item[1..]));
    assert_eq!(view.contains_all(&[item]).unwrap_err().name(), "BadArgument");
    assert_eq!(view.contains_all(&words(item)).unwrap_err().name(), "BadArgument");
}

#[test]
fn numbers_of_a_filter() {
    let mut filter = BloomFilterBuilder::with_accuracy(1000, 0.01).seed(7).build().unwrap();
    assert_eq!((filter.capacity(), filter.num_hashes(), filter.seed()), (9600, 7, 7));
    assert_eq!(filter.estimated_size(), 1200);
    assert!(filter.is_empty() && filter.load_factor() == 0.0);
    filter.insert(1u64);
    assert_eq!((filter.bits_used(), filter.is_empty()), (7, false));
    assert_eq!(filter.load_factor(), 7.0 / 9600.0);
    assert_eq!(filter.estimated_fpp(), (7.0f64 / 9600.0).powf(7.0));
    let expected = "BloomFilter { capacity: 9600, num_hashes: 7, seed: 7, bits_used: 7 }";
    assert_eq!(format!("{:?}", filter), expected);
    filter.reset();
    assert!(filter.is_empty() && filter.serialized_size() == 24);
    let one = BloomFilterBuilder::with_accuracy(1000, 1.0).build().unwrap();
    assert_eq!((one.capacity(), one.num_hashes()), (64, 1));
    let size = BloomFilter::suggest_num_bits(1000, 100).unwrap();
    assert!((9585..9643).contains(&size));
    assert_eq!(BloomFilter::min_num_bits(100, 10_000).unwrap(), 4000);
    assert_eq!(BloomFilter::min_num_bits(1 << 36, 1 << 36).unwrap_err().name(), "BadNumBits");
    assert_eq!(BloomFilter::suggest_num_hashes(size, 1000).unwrap(), 7);
    assert_eq!(BloomFilter::suggest_num_bits(0, 100).unwrap_err().name(), "BadNumBits");
    assert_eq!(BloomFilter::suggest_num_hashes(size, 0).unwrap_err().name(), "BadNumHashes");
    for builder in [
        BloomFilterBuilder::with_accuracy(0, 0.01),
        BloomFilterBuilder::with_accuracy(1, 0.0),
        BloomFilterBuilder::with_accuracy(1, 1.1),
        BloomFilterBuilder::with_accuracy(1, f64::NAN),
        BloomFilterBuilder::with_accuracy(u64::MAX, 1e-300),
        BloomFilterBuilder::with_size(0, 1),
        BloomFilterBuilder::with_size(137_438_953_153, 1),
        BloomFilterBuilder::with_size(64, 0),
        BloomFilterBuilder::with_size(64, 32_768),
    ] {
        assert_eq!(builder.build().unwrap_err().kind(), ErrorKind::InvalidArgument);
    }
}

#[test]
fn keyed_hashes_are_items() {
    let key = Key::from_bytes([0, 1, 2, 3, 4, 5, 6, 7, 8, 9, 10, 11, 12, 13, 14, 15]);
    assert_eq!(key, Key::new(0x0706_0504_0302_0100, 0x0f0e_0d0c_0b0a_0908));
    let mut filter = BloomFilterBuilder::with_size(1 << 12, 3).build().unwrap();
    filter.insert(keyed_hash(b"user", key));
    assert!(filter.contains(&keyed_hash(b"user", key)));
    assert_ne!(keyed_hash(b"user", key), keyed_hash(b"user", Key::new(0, 0)));
    assert_eq!(format!("{:?}", key), "Key { .. }");
}

#[test]
fn equal_filters_are_equal() {
    let (mut filter, _) = both(3, 2, 1);
    let copy = filter.clone();
    let same = &filter;
    assert!(same == &filter && filter == copy);
    filter.insert(1u64);
    assert!(filter != copy && copy.is_empty());
}

#[test]
fn threads_read_a_shared_filter() {
    let (mut filter, model) = both(300, 4, 3);
    filter.insert_all(&(0..1000u64).collect::<Vec<_>>()).unwrap();
    let image = filter.serialize();
    let shared = Shared::new(filter).unwrap();
    std::thread::scope(|scope| {
        for thread in 0..8u64 {
            let shared = &shared;
            scope.spawn(move || {
                for _ in 0..10 {
                    let reader = shared.reader().unwrap();
                    assert!((0..1000u64).skip(thread as usize * 100).all(|item| reader.contains(&item)));
                    let mut copy = reader.clone();
                    copy.insert(thread + 5000);
                    assert!(copy.contains(&(thread + 5000)));
                }
            });
        }
    });
    let reader = shared.reader().unwrap();
    let shared = shared.thaw().unwrap_err();
    assert_eq!(reader.serialize(), image);
    drop(reader);
    let mut filter = shared.thaw().unwrap();
    filter.union(&BloomFilter::deserialize(&image).unwrap()).unwrap();
    assert_eq!(filter.serialize(), image);
    assert_eq!(filter.capacity(), 64 * model.words.len());
    std::thread::spawn(move || drop(filter)).join().unwrap();
}
