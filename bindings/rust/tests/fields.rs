//! Items and weights in fields of records.
use datasketches_rattle::bloom::BloomFilterBuilder;
use datasketches_rattle::countmin::CountMinSketch;
use datasketches_rattle::fields::{Fields, FieldsError, FieldsRead};
use datasketches_rattle::frequencies::FrequentItemsSketch;
use std::collections::HashMap;

fn numbers(read: FieldsRead) -> (usize, usize) {
    (read.num_records, read.num_items)
}

/// Returns records of words, the weights of their second words by the numbers in their third, and the numbers of records and items.
fn records() -> (String, HashMap<String, u64>, (usize, usize)) {
    let (mut text, mut weights, mut state) = (String::new(), HashMap::new(), 7u64);
    let (mut num_records, mut num_items) = (0, 0);
    for _ in 0..2000 {
        state = state.wrapping_mul(6364136223846793005).wrapping_add(1442695040888963407);
        let (item, weight) = (format!("item{}", state >> 59), state >> 40 & 255);
        num_records += 1;
        if state >> 33 & 7 == 0 {
            text += "alone\n";
        } else {
            text += &format!("x {} \t{}\r\n", item, weight);
            *weights.entry(item).or_insert(0) += weight;
            num_items += 1;
        }
    }
    (text, weights, (num_records, num_items))
}

#[test]
fn weights_of_fields() {
    let (text, weights, read) = records();
    let mut heavy = FrequentItemsSketch::<String>::new(64).unwrap();
    let mut counts = CountMinSketch::<u64>::new(4, 4096).unwrap();
    let mut filter = BloomFilterBuilder::with_size(1 << 16, 5).build().unwrap();
    let fields = Fields::words(1).with_weight(2);
    assert_eq!(numbers(heavy.update_fields(text.as_bytes(), fields).unwrap()), read);
    assert_eq!(numbers(counts.update_fields(text.as_bytes(), fields).unwrap()), read);
    assert_eq!(numbers(filter.insert_fields(text.as_bytes(), Fields::words(1)).unwrap()), read);
    for (item, weight) in &weights {
        assert_eq!(heavy.estimate(item), *weight);
        assert!(counts.estimate(item.as_str()) >= *weight);
        assert!(filter.contains(item.as_str()));
    }
    assert_eq!(counts.total_weight(), weights.values().sum::<u64>());
    assert!(!filter.contains("alone"));
}

#[test]
fn formats() {
    let mut signs = CountMinSketch::<i64>::new(4, 4096).unwrap();
    signs.update_fields(b"a;-7\n;2\na;3\n", Fields::between(b';', 0).with_weight(1)).unwrap();
    assert_eq!((signs.estimate("a"), signs.estimate("")), (-4, 2));
    let mut heavy = FrequentItemsSketch::<String>::new(64).unwrap();
    heavy.update_fields(b"\"a\n\"\"b\"\"\",1\nc,2\n", Fields::csv(b',', 0)).unwrap();
    assert_eq!((heavy.estimate(&"a\n\"b\"".to_string()), heavy.estimate(&"c".to_string())), (1, 1));
    heavy.update_fields(b"3 a\n4 b", Fields::lines().with_weight(0)).unwrap();
    assert_eq!((heavy.estimate(&"3 a".to_string()), heavy.total_weight()), (3, 9));
}

#[test]
fn errors() {
    let mut heavy = FrequentItemsSketch::<String>::new(64).unwrap();
    let mut failed =
        |bytes: &[u8], fields: Fields| -> FieldsError { heavy.update_fields(bytes, fields).unwrap_err() };
    let weighed = Fields::words(0).with_weight(1);
    for (bytes, fields, name, offset) in [
        (&b"a 1\nb\n"[..], weighed, "BadWeight", Some(4)),
        (b"a -1\n", weighed, "BadWeight", Some(0)),
        (b"a\n\xff\n", Fields::words(0), "InvalidUtf8", Some(2)),
        (b"a 18446744073709551615\nb 1\n", weighed, "WeightOverflow", None),
        (b"a", Fields::between(200, 0), "BadArgument", None),
        (b"a", Fields::csv(b'"', 0), "BadArgument", None),
        (b"a", Fields::words(u32::MAX), "BadArgument", None),
        (b"a", Fields::words(0).with_weight(u32::MAX), "BadArgument", None),
    ] {
        let error = failed(bytes, fields);
        assert_eq!((error.error.name(), error.offset), (name, offset));
    }
    assert_eq!(
        failed(b"a 1\nb\n", weighed).to_string(),
        "weight missing or no number in range, record at byte 4"
    );
    assert_eq!(heavy.total_weight(), 0);
}
