//! Times calls of the crate for Rust beside plain Rust, in one process, and prints a table: see `rust.sh`.
//!
//! Each item of the published crate is hashed by its `Hash`, as on the plain side.

mod plain;
#[allow(dead_code)]
mod timing;

use datasketches_rattle::bloom::{BloomFilter, BloomFilterBuilder};
use datasketches_rattle::countmin::CountMinSketch;
use datasketches_rattle::frequencies::FrequentItemsSketch;
use plain::count_min::CountMin;
use plain::filter::Filter;
use plain::frequent::Frequent;
use std::hash::Hash;
use std::hint::black_box;
use timing::{Table, Task, digest, numbers, thread_time};

/// The number of items of a row, and of a row on frequent items.
const COUNT: usize = 1 << 16;
const COUNT_OF_FREQUENT: usize = 1 << 20;

/// Returns the time of a function, in seconds, and its result.
fn timed(run: impl FnOnce() -> u64) -> (f64, u64) {
    let start = thread_time();
    let result = black_box(run());
    (thread_time() - start, result)
}

/// Times a row whose turns change a copy of a sketch: `new` creates it, `turn` is a turn, and `end` returns a digest.
fn row<S, P>(
    table: &Table,
    name: &str,
    count: usize,
    (new, turn, end): (&dyn Fn() -> S, &dyn Fn(&mut S) -> u64, &dyn Fn(&S) -> u64),
    (plain, plain_turn, plain_end): (&dyn Fn() -> P, &dyn Fn(&mut P) -> u64, &dyn Fn(&P) -> u64),
) {
    if !table.has(name) {
        return;
    }
    let here = |turns| {
        let mut sketch = new();
        let (time, sum) = timed(|| (0..turns).fold(1, |sum: u64, _| sum.wrapping_mul(31).wrapping_add(turn(&mut sketch))));
        (time, sum.wrapping_add(end(&sketch)))
    };
    let plain = |turns| {
        let mut sketch = plain();
        let (time, sum) = timed(|| (0..turns).fold(1, |sum: u64, _| sum.wrapping_mul(31).wrapping_add(plain_turn(&mut sketch))));
        (time, sum.wrapping_add(plain_end(&sketch)))
    };
    table.timed_row(name, ((1 << 18) / count).max(1) as u64, count, &here, &plain);
}

/// Times rows on filters of items of a type: single calls, and calls on all.
fn filters<T: Hash>(table: &Table, kind: &str, items: &[T], others: &[T])
where
    [T]: datasketches_rattle::items::Batch,
{
    let new = || {
        let mut filter = BloomFilterBuilder::with_size(1 << 20, 7).build().unwrap();
        filter.insert_all(items).unwrap();
        filter
    };
    let plain = || {
        let mut filter = Filter::with_size(1 << 20, 7, 9001);
        items.iter().for_each(|item| filter.insert(item));
        filter
    };
    let (end, plain_end) = (
        |filter: &BloomFilter| filter.bits_used(),
        |filter: &Filter| filter.bits_used(),
    );
    let plain_insert = |filter: &mut Filter| {
        items.iter().for_each(|item| filter.insert(item));
        1
    };
    let insert = |filter: &mut BloomFilter| {
        items.iter().for_each(|item| filter.insert(item));
        1
    };
    row(
        table,
        &format!("filter, insert, {kind}"),
        COUNT,
        (&new, &insert, &end),
        (&plain, &plain_insert, &plain_end),
    );
    let insert = |filter: &mut BloomFilter| {
        filter.insert_all(items).unwrap();
        1
    };
    row(
        table,
        &format!("filter, insert, many, {kind}"),
        COUNT,
        (&new, &insert, &end),
        (&plain, &plain_insert, &plain_end),
    );
    for (presence, asked) in [("present", items), ("absent", others)] {
        let plain_ask = |filter: &mut Filter| asked.iter().map(|item| u64::from(filter.contains(item))).sum();
        let ask = |filter: &mut BloomFilter| asked.iter().map(|item| u64::from(filter.contains(item))).sum();
        let name = format!("filter, contains, {presence}, {kind}");
        row(table, &name, COUNT, (&new, &ask, &end), (&plain, &plain_ask, &plain_end));
        let ask = |filter: &mut BloomFilter| {
            let found = filter.contains_all(asked).unwrap();
            found.into_iter().map(u64::from).sum()
        };
        let name = format!("filter, contains, many, {presence}, {kind}");
        row(table, &name, COUNT, (&new, &ask, &end), (&plain, &plain_ask, &plain_end));
    }
}

/// Times rows on Count-Min sketches of items of a type.
fn counts<T: Hash>(table: &Table, kind: &str, items: &[T])
where
    [T]: datasketches_rattle::items::Batch,
{
    let new = || {
        let mut counts = CountMinSketch::<u64>::new(4, 1 << 16).unwrap();
        counts.update_all(items).unwrap();
        counts
    };
    let plain = || {
        let mut counts = CountMin::<u64>::new(4, 1 << 16, 9001);
        items.iter().for_each(|item| counts.update(item));
        counts
    };
    let end = |counts: &CountMinSketch<u64>| digest(&counts.serialize());
    let plain_end = |counts: &CountMin<u64>| digest(&counts.serialize());
    let plain_update = |counts: &mut CountMin<u64>| {
        items.iter().for_each(|item| counts.update(item));
        1
    };
    let update = |counts: &mut CountMinSketch<u64>| {
        items.iter().for_each(|item| counts.update(item));
        1
    };
    let name = format!("Count-Min, update, {kind}");
    row(
        table,
        &name,
        COUNT,
        (&new, &update, &end),
        (&plain, &plain_update, &plain_end),
    );
    let update = |counts: &mut CountMinSketch<u64>| {
        counts.update_all(items).unwrap();
        1
    };
    let name = format!("Count-Min, update, many, {kind}");
    row(
        table,
        &name,
        COUNT,
        (&new, &update, &end),
        (&plain, &plain_update, &plain_end),
    );
    let plain_ask = |counts: &mut CountMin<u64>| items.iter().map(|item| counts.estimate(item)).sum();
    let ask = |counts: &mut CountMinSketch<u64>| items.iter().map(|item| counts.estimate(item)).sum();
    let name = format!("Count-Min, estimate, {kind}");
    row(table, &name, COUNT, (&new, &ask, &end), (&plain, &plain_ask, &plain_end));
    let ask = |counts: &mut CountMinSketch<u64>| counts.estimate_all(items).unwrap().into_iter().sum();
    let name = format!("Count-Min, estimate, many, {kind}");
    row(table, &name, COUNT, (&new, &ask, &end), (&plain, &plain_ask, &plain_end));
}

/// Returns ranks by a Zipf law with exponent 1.1.
fn ranks(count: usize) -> Vec<usize> {
    let weights: Vec<f64> = (1..=count).map(|rank| (rank as f64).powf(-1.1)).collect();
    let sums: Vec<f64> = weights
        .iter()
        .scan(0.0, |sum, weight| {
            Some({
                *sum += weight;
                *sum
            })
        })
        .collect();
    let total = sums[sums.len() - 1];
    let place = |number: u64| sums.partition_point(|sum| *sum < number as f64 / u64::MAX as f64 * total);
    numbers(1, count)
        .into_iter()
        .map(|number| place(number.wrapping_mul(0xD6E8_FEB8_6659_FD93)))
        .collect()
}

/// Times rows on frequent items. The table of the other side has no key, so only totals are compared.
fn frequent(table: &Table) {
    let ranks = ranks(COUNT_OF_FREQUENT);
    let items: Vec<i64> = ranks.iter().map(|rank| numbers(*rank as u64, 1)[0] as i64).collect();
    let strings: Vec<String> = items.iter().map(|item| format!("item {}", item % 10_000_000)).collect();
    let new = || FrequentItemsSketch::<i64>::new(1024).unwrap();
    let plain = || Frequent::<i64>::new(1024);
    let (end, plain_end) = (
        |sketch: &FrequentItemsSketch<i64>| sketch.total_weight(),
        |sketch: &Frequent<i64>| sketch.total(),
    );
    let plain_update = |sketch: &mut Frequent<i64>| {
        items.iter().for_each(|item| sketch.update(*item));
        1
    };
    let update = |sketch: &mut FrequentItemsSketch<i64>| {
        items.iter().for_each(|item| sketch.update(*item));
        1
    };
    row(
        table,
        "frequent, update, i64",
        COUNT_OF_FREQUENT,
        (&new, &update, &end),
        (&plain, &plain_update, &plain_end),
    );
    let update = |sketch: &mut FrequentItemsSketch<i64>| {
        sketch.update_all(&items).unwrap();
        1
    };
    row(
        table,
        "frequent, update, many, i64",
        COUNT_OF_FREQUENT,
        (&new, &update, &end),
        (&plain, &plain_update, &plain_end),
    );
    let plain_ask = |sketch: &mut Frequent<i64>| items.iter().map(|item| sketch.lower_bound(item)).sum::<u64>().min(1);
    let ask = |sketch: &mut FrequentItemsSketch<i64>| items.iter().map(|item| sketch.lower_bound(item)).sum::<u64>().min(1);
    let filled = || {
        let mut sketch = new();
        sketch.update_all(&items).unwrap();
        sketch
    };
    let plain_filled = || {
        let mut sketch = plain();
        plain_update(&mut sketch);
        sketch
    };
    row(
        table,
        "frequent, lower bound, i64",
        COUNT_OF_FREQUENT,
        (&filled, &ask, &end),
        (&plain_filled, &plain_ask, &plain_end),
    );

    let ask = |sketch: &mut FrequentItemsSketch<i64>| {
        let bounds = sketch.bounds_all(&items).unwrap();
        bounds.iter().map(|bounds| bounds.lower_bound).sum::<u64>().min(1)
    };
    row(
        table,
        "frequent, lower bound, many, i64",
        COUNT_OF_FREQUENT,
        (&filled, &ask, &end),
        (&plain_filled, &plain_ask, &plain_end),
    );

    let new = || FrequentItemsSketch::<String>::new(1024).unwrap();
    let plain = || Frequent::<String>::new(1024);
    let end = |sketch: &FrequentItemsSketch<String>| sketch.total_weight();
    let plain_end = |sketch: &Frequent<String>| sketch.total();
    let plain_update = |sketch: &mut Frequent<String>| {
        strings.iter().for_each(|item| sketch.update_with_count_ref(item.as_str(), 1));
        1
    };
    let update = |sketch: &mut FrequentItemsSketch<String>| {
        strings.iter().for_each(|item| sketch.update_ref(item.as_str()));
        1
    };
    row(
        table,
        "frequent, update, &str",
        COUNT_OF_FREQUENT,
        (&new, &update, &end),
        (&plain, &plain_update, &plain_end),
    );
    let update = |sketch: &mut FrequentItemsSketch<String>| {
        sketch.update_all(&strings).unwrap();
        1
    };
    row(
        table,
        "frequent, update, many, &str",
        COUNT_OF_FREQUENT,
        (&new, &update, &end),
        (&plain, &plain_update, &plain_end),
    );
}

fn main() {
    timing::keep_memory();
    let table = Table::new(std::env::args().skip(1).collect(), Task::Time);
    let (items, others) = (numbers(1, COUNT), numbers(1 << 40, COUNT));
    let strings = |numbers: &[u64]| {
        numbers
            .iter()
            .map(|number| format!("item {}", number % 10_000_000))
            .collect::<Vec<String>>()
    };
    let (texts, other_texts) = (strings(&items), strings(&others));
    let borrow = |texts: &'static [String]| texts.iter().map(String::as_str).collect::<Vec<&str>>();
    let (texts, other_texts) = (borrow(texts.leak()), borrow(other_texts.leak()));
    let pairs = |numbers: &[u64]| numbers.iter().map(|number| *number as u32).collect::<Vec<u32>>();
    filters(&table, "u64", &items, &others);
    filters(&table, "&str", &texts, &other_texts);
    filters(&table, "u32", &pairs(&items), &pairs(&others));
    counts(&table, "u64", &items);
    counts(&table, "&str", &texts);
    counts(&table, "u32", &pairs(&items));
    frequent(&table);
}
