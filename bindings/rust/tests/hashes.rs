//! Items of many types: positions and cells are those of what their `Hash` feeds, as the model's hashers get it.

mod model;

use datasketches_rattle::bloom::{BloomFilter, BloomFilterBuilder, BloomFilterView};
use datasketches_rattle::countmin::{CountMinSketch, CountMinView};
use datasketches_rattle::frequencies::FrequentItemsSketch;
use datasketches_rattle::items::Batch;
use model::{Counts, Filter};
use std::borrow::{Borrow, Cow};
use std::collections::BTreeMap;
use std::ffi::OsStr;
use std::hash::{Hash, Hasher};
use std::net::{IpAddr, Ipv4Addr, Ipv6Addr};
use std::rc::Rc;
use std::time::Duration;

/// A filter and a sketch beside their models.
struct Pair {
    filter: BloomFilter,
    filter_model: Filter,
    counts: CountMinSketch<u64>,
    signed: CountMinSketch<i64>,
    counts_model: Counts,
}

impl Pair {
    fn new() -> Self {
        Pair {
            filter: BloomFilterBuilder::with_size(64 * 50, 3).seed(11).build().unwrap(),
            filter_model: Filter::new(50, 3, 11),
            counts: CountMinSketch::new(3, 40).unwrap(),
            signed: CountMinSketch::new(3, 40).unwrap(),
            counts_model: Counts::new(3, 40, 9001),
        }
    }

    /// Makes each call on an item, and compares images.
    fn check<T: Hash + ?Sized>(&mut self, item: &T) {
        assert_eq!(self.filter.contains(item), self.filter_model.contains(item));
        assert_eq!(self.filter.contains_and_insert(item), self.filter_model.contains(item));
        self.filter.insert(item);
        self.filter_model.insert(item);
        assert!(self.filter.contains(item));
        assert_eq!(self.filter.serialize(), self.filter_model.image());
        let image = self.filter.serialize();
        assert!(BloomFilterView::new(&image).unwrap().contains(item));

        self.counts.update_with_weight(item, 3);
        self.signed.try_update_with_weight(item, 3).unwrap();
        self.counts_model.update(item, 3);
        assert_eq!(self.counts.serialize(), self.counts_model.image());
        assert_eq!(self.signed.serialize(), self.counts_model.image());
        let estimate = self.counts_model.estimate(item);
        assert_eq!(i128::from(self.counts.estimate(item)), estimate);
        assert_eq!(i128::from(self.signed.estimate(item)), estimate);
        let margin = self.counts.upper_bound(0u64) - self.counts.estimate(0u64);
        assert_eq!(self.counts.upper_bound(item), estimate as u64 + margin);
        assert_eq!(self.signed.upper_bound(item), (estimate as u64 + margin) as i64);
        let (counts, signed) = (self.counts.serialize(), self.signed.serialize());
        assert_eq!(i128::from(CountMinView::<u64>::new(&counts).unwrap().estimate(item)), estimate);
        assert_eq!(i128::from(CountMinView::<i64>::new(&signed).unwrap().estimate(item)), estimate);
    }

    /// Makes each call on many items.
    fn check_all<T: Hash, B: Batch + AsRef<[T]>>(&mut self, items: B) {
        let expected: Vec<bool> =
            items.as_ref().iter().map(|item| self.filter_model.contains(item)).collect();
        assert_eq!(self.filter.contains_all(&items).unwrap(), expected);
        self.filter.insert_all(&items).unwrap();
        self.counts.update_all(&items).unwrap();
        self.signed.update_all_with_weights(&items, &vec![1; items.as_ref().len()]).unwrap();
        for item in items.as_ref() {
            self.filter_model.insert(item);
            self.counts_model.update(item, 1);
        }
        assert_eq!(self.filter.serialize(), self.filter_model.image());
        assert_eq!(self.counts.serialize(), self.counts_model.image());
        assert_eq!(self.signed.serialize(), self.counts_model.image());
        let estimates = items.as_ref().iter().map(|item| self.counts_model.estimate(item) as u64);
        assert_eq!(self.counts.estimate_all(&items).unwrap(), estimates.collect::<Vec<u64>>());
    }
}

#[derive(Hash)]
struct User {
    id: u32,
    name: String,
    tags: Vec<&'static str>,
}

#[derive(Hash)]
struct Id(u64);

#[derive(Hash)]
enum Event {
    Start,
    Move { x: i16, y: i16 },
    Text(String),
}

/// Feeds bytes in one piece and then 0xff, as a string does, but they are not UTF-8.
struct LikeText(&'static [u8]);

impl Hash for LikeText {
    fn hash<H: Hasher>(&self, state: &mut H) {
        state.write(self.0);
        state.write_u8(0xff);
    }
}

/// Feeds one byte after another.
struct Bytes(Vec<u8>);

impl Hash for Bytes {
    fn hash<H: Hasher>(&self, state: &mut H) {
        for byte in &self.0 {
            state.write_u8(*byte);
        }
    }
}

#[test]
fn numbers_and_strings() {
    let mut pair = Pair::new();
    pair.check(&7u64);
    pair.check(&-7i64);
    pair.check(&7usize);
    pair.check(&-7isize);
    pair.check(&Id(9));
    pair.check("a string");
    pair.check("");
    pair.check(&"seven b".to_string());
    pair.check(&Cow::Borrowed("borrowed"));
    pair.check(&Rc::new("ü".repeat(1000)));
    pair.check(&'x'.to_string().into_boxed_str());
}

#[test]
fn numbers_of_other_widths() {
    let mut pair = Pair::new();
    pair.check(&7u8);
    pair.check(&7u16);
    pair.check(&7u32);
    pair.check(&7u128);
    pair.check(&-7i8);
    pair.check(&-7i16);
    pair.check(&-7i32);
    pair.check(&-7i128);
    pair.check(&true);
    pair.check(&'猫');
    pair.check(&(1u32, 2u32));
    pair.check(&(1u16, 2u16, 3u32));
}

#[test]
fn derived_and_composed_types() {
    let mut pair = Pair::new();
    pair.check(&());
    pair.check(&("a", 1u64));
    pair.check(&(1u8, "two", 3.5f32.to_bits()));
    pair.check(&User { id: 7, name: "Ann".to_string(), tags: vec!["x", "yz"] });
    pair.check(&User { id: 7, name: "Ann".repeat(100), tags: vec!["x"; 50] });
    pair.check(&[Event::Start, Event::Move { x: -1, y: 2 }, Event::Text("a".to_string())]);
    pair.check(&[1u8, 2, 3][..]);
    pair.check(&[1i32, 2, 3]);
    pair.check(&vec![0u8; 10_000]);
    pair.check(&Some("x"));
    pair.check(&None::<u64>);
    pair.check(&Duration::from_millis(1500));
    pair.check(&IpAddr::V4(Ipv4Addr::new(10, 0, 0, 1)));
    pair.check(&IpAddr::V6(Ipv6Addr::LOCALHOST));
    pair.check(OsStr::new("path"));
    pair.check(&BTreeMap::from([(1, "a"), (2, "b")]));
    pair.check(&LikeText(b"\xff\xfe"));
    pair.check(&LikeText(&[0x80; 300]));
    for length in 0..300 {
        pair.check(&Bytes((0..length).map(|byte| byte as u8).collect()));
    }
}

#[test]
fn many_numbers_of_other_widths() {
    let mut pair = Pair::new();
    pair.check_all::<u8, _>((0..=255).collect::<Vec<u8>>());
    pair.check_all::<u16, _>((0..300).collect::<Vec<u16>>());
    pair.check_all::<u32, _>((0..300).collect::<Vec<u32>>());
    pair.check_all::<u128, _>((0..300).collect::<Vec<u128>>());
    pair.check_all::<i8, _>((-128..=127).collect::<Vec<i8>>());
    pair.check_all::<i16, _>((-300..0).collect::<Vec<i16>>());
    pair.check_all::<i32, _>([-1, 0, 1]);
    pair.check_all::<i128, _>([-1, 0, 1]);
    pair.check_all::<bool, _>([true, false]);
    pair.check_all::<char, _>(['a', '猫']);
}

#[test]
fn many_numbers_and_strings() {
    let mut pair = Pair::new();
    pair.check_all::<u64, _>((0..300).collect::<Vec<u64>>());
    pair.check_all::<i64, _>((-300..0).collect::<Vec<i64>>());
    pair.check_all::<usize, _>((0..300).collect::<Vec<usize>>());
    pair.check_all::<isize, _>((-300..0).collect::<Vec<isize>>());
    pair.check_all::<&str, _>(["a", "", "ü"]);
    pair.check_all::<String, _>((0..300).map(|number| number.to_string()).collect::<Vec<String>>());
    pair.check_all::<Box<str>, _>([Box::from("boxed")]);
    pair.check_all::<Cow<'static, str>, _>(vec![Cow::Borrowed("cow"); 200]);
}

/// A borrowed form of `String` whose `Hash` feeds the same in pieces, or something else.
#[derive(PartialEq, Eq)]
#[repr(transparent)]
struct Form<const FEEDS: bool>(str);

impl<const FEEDS: bool> Hash for Form<FEEDS> {
    fn hash<H: Hasher>(&self, state: &mut H) {
        for byte in self.0.as_bytes() {
            state.write_u8(*byte);
        }
        if FEEDS {
            state.write_u8(0xff);
        }
    }
}

impl<const FEEDS: bool> Borrow<Form<FEEDS>> for String {
    fn borrow(&self) -> &Form<FEEDS> {
        // SAFETY: the form is `repr(transparent)` over `str`.
        unsafe { &*(self.as_str() as *const str as *const Form<FEEDS>) }
    }
}

impl<const FEEDS: bool> ToOwned for Form<FEEDS> {
    type Owned = String;

    fn to_owned(&self) -> String {
        self.0.to_owned()
    }
}

#[test]
fn borrowed_forms_of_strings() {
    for text in ["", "a", "seven b", "eight by", "ü".repeat(200).as_str()] {
        let mut sketch = FrequentItemsSketch::<String>::new(8).unwrap();
        let string = text.to_string();
        sketch.update_ref::<Form<true>>(string.borrow());
        sketch.update_ref::<Form<false>>(string.borrow());
        sketch.update_ref(text);
        assert_eq!(sketch.estimate::<Form<true>>(string.borrow()), 3);
        assert_eq!(sketch.estimate(text), 3);
        assert_eq!(sketch.estimate::<Form<false>>(string.borrow()), 0); // its `Hash` is not the string's
        assert_eq!(sketch.upper_bound::<Form<false>>(string.borrow()), 0);
    }
}

#[test]
fn a_hash_that_changes_is_some_item() {
    struct Changes(std::cell::Cell<u32>);
    impl Hash for Changes {
        fn hash<H: Hasher>(&self, state: &mut H) {
            self.0.set(self.0.get() + 1);
            if self.0.get() == 1 {
                state.write(b"text");
                state.write_u8(0xff);
            } else if self.0.get() > 2 {
                state.write(&vec![1; 1000]);
            }
        }
    }
    let mut filter = BloomFilterBuilder::with_size(64, 2).build().unwrap();
    filter.insert(Changes(std::cell::Cell::new(0)));
    assert!(!filter.is_empty());
}
