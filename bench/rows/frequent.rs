//! Sketches of frequent items. The items are first added to each, once each, unless stated otherwise.

use crate::plain::frequent::{Frequent, Table as Counters, Written};
use crate::row;
use crate::timing::{Table, digest};
use std::hash::Hash;
use std::hint::black_box;

/// The maximum size of a sketch and its sample size, of which 0 means the maximum.
#[repr(C)]
struct Shape {
    max_map_size: usize,
    sample_size: usize,
}

/// Returns a digest of the state of a sketch.
fn summary<T: Eq + Hash>(sketch: &Frequent<T>) -> u64 {
    sketch
        .total()
        .wrapping_add(sketch.error().wrapping_mul(3))
        .wrapping_add((sketch.active() as u64).wrapping_mul(5))
}

/// Returns a sketch of the items.
fn filled(shape: &Shape, items: &[i64]) -> Frequent<i64> {
    let mut sketch = match shape.sample_size {
        0 => Frequent::new(shape.max_map_size),
        sample_size => Frequent::with_sample_size(shape.max_map_size, sample_size),
    };
    for item in items {
        sketch.update(*item);
    }
    sketch
}

/// Adds the items to new sketches.
fn update(shape: &Shape, items: &[i64], _: &[i64], turns: u64) -> u64 {
    (0..turns).fold(0, |all: u64, _| all.wrapping_add(summary(&filled(shape, items))))
}

/// Estimates the others.
fn estimate(shape: &Shape, items: &[i64], others: &[i64], turns: u64) -> u64 {
    let sketch = filled(shape, items);
    let mut all = sketch.total();
    for turn in 0..turns {
        for item in others {
            all = all.wrapping_add(sketch.estimate(item) ^ turn);
        }
    }
    all
}

/// Merges a sketch of the others into it.
fn merge(shape: &Shape, items: &[i64], others: &[i64], turns: u64) -> u64 {
    let (mut sketch, other) = (filled(shape, items), filled(shape, others));
    for _ in 0..turns {
        sketch.merge(&other);
    }
    summary(&sketch)
}

/// Creates a report with no false negatives.
fn report(shape: &Shape, items: &[i64], _: &[i64], turns: u64) -> u64 {
    let sketch = filled(shape, items);
    let mut all = sketch.total();
    for _ in 0..turns {
        all = all.wrapping_add(black_box(sketch.frequent_items()).len() as u64);
    }
    all
}

/// Walks a table of the items.
fn walk(shape: &Shape, items: &[i64], _: &[i64], turns: u64) -> u64 {
    let mut table = Counters::new(shape.max_map_size);
    for item in items {
        if table.active() + 1 < table.len() && table.get(item) == 0 {
            table.add(*item, 1);
        }
    }
    let mut all = table.active() as u64;
    for turn in 0..turns {
        for (item, count) in table.iter() {
            all = all.wrapping_add(item.unsigned_abs() ^ turn).wrapping_add(count);
        }
    }
    all
}

fn written<T: Written>(sketch: &Frequent<T>, turns: u64) -> u64 {
    let mut image = sketch.serialize();
    for _ in 0..turns {
        image = black_box(sketch.serialize());
    }
    digest(&image)
}

fn read_back<T: Written>(sketch: &Frequent<T>, turns: u64) -> Frequent<T> {
    let image = sketch.serialize();
    let mut last = Frequent::deserialize(&image).unwrap();
    for _ in 0..turns {
        last = black_box(Frequent::deserialize(&image).unwrap());
    }
    last
}

/// Writes its image.
fn write(shape: &Shape, items: &[i64], _: &[i64], turns: u64) -> u64 {
    written(&filled(shape, items), turns)
}

/// Reads its image.
fn read(shape: &Shape, items: &[i64], _: &[i64], turns: u64) -> u64 {
    let last = read_back(&filled(shape, items), turns);
    digest(&last.serialize()).wrapping_add(summary(&last))
}

/// Returns 65536 strings, each with its number.
fn texts() -> Vec<String> {
    (0..65536).map(|n| format!("the item {n}")).collect()
}

/// Adds strings by reference to new sketches. The items are the numbers of the strings.
fn update_texts(shape: &Shape, items: &[i64], _: &[i64], turns: u64) -> u64 {
    let texts = texts();
    let mut all = texts.len() as u64;
    for _ in 0..turns {
        let mut sketch = Frequent::<String>::new(shape.max_map_size);
        for item in items {
            sketch.update_with_count_ref(&texts[(item.unsigned_abs() % 65536) as usize], 1);
        }
        all = all.wrapping_add(summary(&sketch));
    }
    all
}

/// Returns a sketch of strings of weight 1 with a full table.
fn filled_with_texts(shape: &Shape) -> Frequent<String> {
    let mut sketch = Frequent::new(shape.max_map_size);
    for text in texts().iter().take(shape.max_map_size / 4 * 3) {
        sketch.update_with_count_ref(text, 1);
    }
    sketch
}

/// Writes the image of a sketch of strings.
fn write_texts(shape: &Shape, _: &[i64], _: &[i64], turns: u64) -> u64 {
    written(&filled_with_texts(shape), turns)
}

/// Reads the same image.
fn read_texts(shape: &Shape, _: &[i64], _: &[i64], turns: u64) -> u64 {
    let last = read_back(&filled_with_texts(shape), turns);
    digest(&last.serialize()).wrapping_add(last.total())
}

/// Returns a stream of `len` items. The frequency of the item of rank r is proportional to 1 over r to the power 1.1.
pub fn zipf(len: usize) -> Vec<i64> {
    let mut sums = Vec::new();
    let mut sum = 0.0;
    for rank in 1..=len {
        sum += (rank as f64).powf(-1.1);
        sums.push(sum);
    }
    let mut state: u64 = 0x9E37_79B9_7F4A_7C15;
    let mut draw = || {
        state ^= state << 13;
        state ^= state >> 7;
        state ^= state << 17;
        let at = (state >> 11) as f64 / (1u64 << 53) as f64 * sum;
        sums.partition_point(|below| *below < at) as i64
    };
    (0..len).map(|_| draw()).collect()
}

pub fn rows(t: &Table) {
    let len = 1 << 20;
    let zipf = zipf(len);
    let mixed = |n: usize| (n as u64).wrapping_mul(0x9E37_79B9_7F4A_7C15) as i64;
    let distinct: Vec<i64> = (0..len).map(mixed).collect();
    let others: Vec<i64> = (len..2 * len).map(mixed).collect();
    for size in [1024, 65536] {
        let shape = Shape {
            max_map_size: size,
            sample_size: 0,
        };
        // the number of items in a full table
        let full = size / 4 * 3;
        let (mine, theirs) = (&distinct[..full], &others[..full]);
        let turns = ((1 << 21) / full) as u64;
        // the number of look-ups, in an order that no branch predictor learns
        let asked = 1 << 18;
        let hits: Vec<i64> = (0..asked).map(|n| distinct[(mixed(n) as u64 >> 33) as usize % full]).collect();
        let misses = &others[..asked];
        let name = |what: &str| format!("frequent, {what}, {size} slots");
        let each = |what: &str| name(&format!("{what}, a counter"));
        row!(t, &name("update, Zipf"), 1, len; rattle_frequent_update, update; shape, zipf, []);
        row!(t, &name("update, distinct"), 1, len; rattle_frequent_update, update; shape, distinct, []);
        row!(t, &name("update by strings, Zipf"), 1, len; rattle_frequent_update_texts, update_texts; shape, zipf, []);
        row!(t, &name("update by &str, Zipf"), 1, len; rattle_frequent_update_strs, update_texts; shape, zipf, []);
        row!(t, &name("estimate, hit"), 4, asked; rattle_frequent_estimate, estimate; shape, mine, hits);
        row!(t, &name("estimate, miss"), 4, asked; rattle_frequent_estimate, estimate; shape, mine, misses);
        row!(t, &name("update_all, Zipf"), 1, len; rattle_frequent_update_all, update; shape, zipf, []);
        row!(t, &name("update_all, distinct"), 1, len; rattle_frequent_update_all, update; shape, distinct, []);
        row!(t, &name("estimate_all, hit"), 4, asked; rattle_frequent_estimate_all, estimate; shape, mine, hits);
        row!(t, &name("estimate_all, miss"), 4, asked; rattle_frequent_estimate_all, estimate; shape, mine, misses);
        row!(t, &each("merge"), turns / 8, full; rattle_frequent_merge, merge; shape, mine, theirs);
        row!(t, &each("walk"), turns, full; rattle_frequent_walk, walk; shape, mine, []);
        row!(t, &each("report"), turns / 8, full; rattle_frequent_report, report; shape, mine, []);
        row!(t, &each("write an image"), turns, full; rattle_frequent_write, write; shape, mine, []);
        row!(t, &each("read an image"), turns, full; rattle_frequent_read, read; shape, mine, []);
        row!(t, &each("write an image of strings"), turns, full; rattle_frequent_write_texts, write_texts; shape, [], []);
        row!(t, &each("read an image of strings"), turns / 4, full; rattle_frequent_read_texts, read_texts;
            shape, [], []);
    }
    for sample_size in [2, 64, 1024] {
        let shape = Shape {
            max_map_size: 4096,
            sample_size,
        };
        let name = format!("frequent, update, Zipf, 4096 slots, samples of {sample_size}");
        row!(t, &name, 1, len; rattle_frequent_update, update; shape, zipf, []);
    }
}
