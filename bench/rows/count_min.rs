//! Count-Min sketches. Each has first counted the items with the weight.

use crate::plain::count_min::CountMin;
use crate::row;
use crate::timing::{Table, digest, numbers};
use std::hint::black_box;

/// The shape of a sketch, the weight of each item, and the fraction by which it decays.
#[repr(C)]
struct Shape {
    num_hashes: u8,
    num_buckets: u32,
    weight: u64,
    numerator: u64,
    denominator: u64,
}

/// Returns a sketch that counted each item with the weight.
fn filled(shape: &Shape, items: &[u64]) -> CountMin<u64> {
    let mut sketch = CountMin::new(shape.num_hashes, shape.num_buckets, 9001);
    for n in items {
        sketch.update_with_weight(*n, shape.weight);
    }
    sketch
}

/// Returns the wrapping sum of the total and all estimates.
fn summary(sketch: &CountMin<u64>, items: &[u64]) -> u64 {
    items
        .iter()
        .fold(sketch.total(), |all, n| all.wrapping_add(sketch.estimate(*n)))
}

/// Counts the items with a weight of 1.
fn update(shape: &Shape, items: &[u64], _: &[u64], turns: u64) -> u64 {
    let mut sketch = filled(shape, items);
    for _ in 0..turns {
        for n in items {
            sketch.update(*n);
        }
    }
    summary(&sketch, items)
}

/// Counts the items with the weight.
fn weigh(shape: &Shape, items: &[u64], _: &[u64], turns: u64) -> u64 {
    let mut sketch = filled(shape, items);
    for _ in 0..turns {
        for n in items {
            sketch.update_with_weight(*n, shape.weight);
        }
    }
    summary(&sketch, items)
}

/// Estimates the others.
fn estimate(shape: &Shape, items: &[u64], others: &[u64], turns: u64) -> u64 {
    let sketch = filled(shape, items);
    let mut all = sketch.total();
    for turn in 0..turns {
        for n in others {
            all = all.wrapping_add(sketch.estimate(*n) ^ turn);
        }
    }
    all
}

/// Merges a sketch of the others into it.
fn merge(shape: &Shape, items: &[u64], others: &[u64], turns: u64) -> u64 {
    let (mut sketch, other) = (filled(shape, items), filled(shape, others));
    for _ in 0..turns {
        sketch.merge(&other).unwrap();
    }
    summary(&sketch, items)
}

fn halve(shape: &Shape, items: &[u64], _: &[u64], turns: u64) -> u64 {
    let mut sketch = filled(shape, items);
    for _ in 0..turns {
        sketch.halve();
    }
    summary(&sketch, items)
}

/// Decays the sketch by a float, as the published crate does.
fn decay(shape: &Shape, items: &[u64], _: &[u64], turns: u64) -> u64 {
    let mut sketch = filled(shape, items);
    let factor = shape.numerator as f64 / shape.denominator as f64;
    for _ in 0..turns {
        sketch.decay(factor);
    }
    summary(&sketch, items)
}

/// Decays the sketch by the fraction.
fn decay_by(shape: &Shape, items: &[u64], _: &[u64], turns: u64) -> u64 {
    let mut sketch = filled(shape, items);
    for _ in 0..turns {
        sketch.decay_by(shape.numerator, shape.denominator);
    }
    summary(&sketch, items)
}

/// Returns a sketch with cells of `i64` that counted each item with the weight.
fn filled_signed(shape: &Shape, items: &[u64]) -> CountMin<i64> {
    let mut sketch = CountMin::new(shape.num_hashes, shape.num_buckets, 9001);
    for n in items {
        sketch.update_with_weight(*n, (shape.weight % (1 << 40)) as i64);
    }
    sketch
}

/// Writes the image of a sketch with cells of `i64`.
fn write(shape: &Shape, items: &[u64], _: &[u64], turns: u64) -> u64 {
    let sketch = filled_signed(shape, items);
    let mut image = sketch.serialize();
    for _ in 0..turns {
        image = black_box(sketch.serialize());
    }
    digest(&image)
}

/// Reads the image of a sketch with cells of `i64`.
fn read(shape: &Shape, items: &[u64], _: &[u64], turns: u64) -> u64 {
    let image = filled_signed(shape, items).serialize();
    let mut last: CountMin<i64> = CountMin::deserialize(&image, 9001).unwrap();
    for _ in 0..turns {
        last = black_box(CountMin::deserialize(&image, 9001).unwrap());
    }
    digest(&last.serialize())
}

pub fn rows(t: &Table) {
    let items = numbers(0, 1 << 16);
    let few = &items[..1 << 12];
    for (num_hashes, num_buckets) in [(4, 65536), (8, 20000)] {
        let shape = Shape {
            num_hashes,
            num_buckets,
            weight: black_box((1 << 39) + 1),
            numerator: black_box(999),
            denominator: black_box(1000),
        };
        // a fraction that is exactly a float, so that both ways give the same result
        let exact = Shape {
            numerator: black_box(1_023_000),
            denominator: black_box(1_024_000),
            ..shape
        };
        let count = items.len();
        let cells = usize::from(num_hashes) * num_buckets as usize;
        let name = |what: &str| format!("count-min, {what}, {num_hashes} x {num_buckets}");
        let cell = |what: &str| name(&format!("{what}, a cell"));
        row!(t, &name("update by 1"), 8, count; rattle_count_update, update; shape, items, []);
        row!(t, &name("update by a weight"), 8, count; rattle_count_weigh, weigh; shape, items, []);
        row!(t, &name("estimate"), 8, count; rattle_count_estimate, estimate; shape, items, items);
        row!(t, &name("update_all"), 8, count; rattle_count_update_all, update; shape, items, []);
        row!(t, &name("estimate_all"), 8, count; rattle_count_estimate_all, estimate; shape, items, items);
        row!(t, &cell("merge"), 100, cells; rattle_count_merge, merge; shape, few, few);
        row!(t, &cell("halve"), 30, cells; rattle_count_halve, halve; shape, few, []);
        row!(t, &cell("decay beside floats"), 20, cells; rattle_count_decay, decay; exact, few, []);
        row!(t, &cell("decay by the same fraction"), 20, cells; rattle_count_decay, decay_by; shape, few, []);
        row!(t, &cell("write an image"), 50, cells; rattle_count_write, write; shape, few, []);
        row!(t, &cell("read an image"), 50, cells; rattle_count_read, read; shape, few, []);
    }
}
