//! Filters. The items are first inserted into each.

use crate::plain::filter::Filter;
use crate::plain::image::Refusal;
use crate::row;
use crate::timing::{Table, digest, numbers};
use std::hint::black_box;

/// The shape of a filter.
#[repr(C)]
struct Shape {
    num_bits: u64,
    num_hashes: u16,
}

/// Returns a filter of the items.
fn filled(shape: &Shape, items: &[u64]) -> Filter {
    let mut filter = Filter::with_size(shape.num_bits, shape.num_hashes, 9001);
    for n in items {
        filter.insert(n);
    }
    filter
}

/// Inserts the items again.
fn insert(shape: &Shape, items: &[u64], _: &[u64], turns: u64) -> u64 {
    let mut filter = filled(shape, items);
    for _ in 0..turns {
        for n in items {
            filter.insert(n);
        }
    }
    filter.bits_used()
}

/// Resets the filter, and inserts the items again.
fn fill(shape: &Shape, items: &[u64], _: &[u64], turns: u64) -> u64 {
    let mut filter = filled(shape, items);
    for _ in 0..turns {
        filter.reset();
        for n in items {
            filter.insert(n);
        }
    }
    filter.bits_used()
}

/// Looks up the others.
fn contains(shape: &Shape, items: &[u64], others: &[u64], turns: u64) -> u64 {
    let filter = filled(shape, items);
    let mut found = 0u64;
    for _ in 0..turns {
        for n in others {
            found += u64::from(filter.contains(n));
        }
    }
    found.wrapping_mul(1_000_003).wrapping_add(filter.bits_used())
}

/// Inserts the items again, and checks for each whether it was there.
fn contains_and_insert(shape: &Shape, items: &[u64], _: &[u64], turns: u64) -> u64 {
    let mut filter = filled(shape, items);
    let mut found = 0u64;
    for _ in 0..turns {
        for n in items {
            found += u64::from(filter.contains_and_insert(n));
        }
    }
    found.wrapping_mul(1_000_003).wrapping_add(filter.bits_used())
}

/// Returns a loop that combines a filter of the others with it, once a turn.
fn joined(join: fn(&mut Filter, &Filter) -> Result<(), Refusal>) -> impl Fn(&Shape, &[u64], &[u64], u64) -> u64 {
    move |shape, items, others, turns| {
        let (mut filter, other) = (filled(shape, items), filled(shape, others));
        let mut sizes = 0u64;
        for _ in 0..turns {
            join(&mut filter, &other).unwrap();
            sizes = sizes.wrapping_mul(31).wrapping_add(filter.bits_used());
        }
        sizes
    }
}

/// Writes its image.
fn write(shape: &Shape, items: &[u64], _: &[u64], turns: u64) -> u64 {
    let filter = filled(shape, items);
    let mut image = filter.serialize();
    for _ in 0..turns {
        image = black_box(filter.serialize());
    }
    digest(&image)
}

/// Reads its image.
fn read(shape: &Shape, items: &[u64], _: &[u64], turns: u64) -> u64 {
    let image = filled(shape, items).serialize();
    let mut last = Filter::deserialize(&image).unwrap();
    for _ in 0..turns {
        last = black_box(Filter::deserialize(&image).unwrap());
    }
    digest(&last.serialize()).wrapping_add(last.bits_used())
}

pub fn rows(t: &Table) {
    for (bits, count, turns) in [(20, 1 << 16, 4), (27, 1 << 18, 2)] {
        let shape = Shape {
            num_bits: 1 << bits,
            num_hashes: black_box(7),
        };
        let (items, absent) = (numbers(0, count), numbers(1 << 40, count));
        let name = |what| format!("filter, {what}, 2^{bits} bits");
        row!(t, &name("insert"), turns, count; rattle_filter_insert, insert; shape, items, []);
        row!(t, &name("reset and insert"), turns, count; rattle_filter_fill, fill; shape, items, []);
        row!(t, &name("contains, present"), turns, count; rattle_filter_contains, contains; shape, items, items);
        row!(t, &name("contains, absent"), turns, count; rattle_filter_contains, contains; shape, items, absent);
        row!(t, &name("insert_all"), turns, count; rattle_filter_insert_all, insert; shape, items, []);
        row!(t, &name("contains_all, present"), turns, count; rattle_filter_contains_all, contains;
            shape, items, items);
        row!(t, &name("contains_all, absent"), turns, count; rattle_filter_contains_all, contains;
            shape, items, absent);
        row!(t, &name("contains and insert"), turns, count; rattle_filter_contains_and_insert, contains_and_insert;
            shape, items, []);
    }
    // enough items to write to each page of memory, since pages that were never written share one place
    for (bits, count, turns) in [(20, 1000, 200), (27, 1 << 15, 25)] {
        let shape = Shape {
            num_bits: 1 << bits,
            num_hashes: black_box(7),
        };
        let (items, others) = (numbers(0, count), numbers(count as u64 / 2, count));
        let words = 1 << (bits - 6);
        let name = |what| format!("filter, {what}, a word, 2^{bits} bits");
        row!(t, &name("union"), turns, words; rattle_filter_union, joined(Filter::union); shape, items, others);
        row!(t, &name("intersect"), turns, words; rattle_filter_intersect, joined(Filter::intersect);
            shape, items, others);
    }
    for (bits, count, turns) in [
        (13, 1 << 8, 1 << 14),
        (19, 1 << 10, 1 << 9),
        (23, 1 << 12, 50),
        (27, 1 << 15, 8),
    ] {
        let shape = Shape {
            num_bits: 1 << bits,
            num_hashes: black_box(7),
        };
        let items = numbers(0, count);
        let words = 1 << (bits - 6);
        let name = |what| format!("filter, {what}, a word, 2^{bits} bits");
        row!(t, &name("write an image"), turns, words; rattle_filter_write, write; shape, items, []);
        row!(t, &name("read an image"), turns, words; rattle_filter_read, read; shape, items, []);
    }
}
