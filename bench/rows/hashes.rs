//! Hashes. Each turn has its own seed, the first seed plus the turn.

use crate::plain::murmur3::Murmur3;
use crate::plain::xxhash::Xxh64;
use crate::row;
use crate::timing::{Table, numbers};
use std::hash::{Hash, Hasher};
use std::hint::black_box;

fn murmur3_u64(seed: &u64, items: &[u64], _: &[u64], turns: u64) -> u64 {
    let mut all: u64 = 0;
    for turn in 0..turns {
        for n in items {
            let mut hasher = Murmur3::with_seed(seed.wrapping_add(turn));
            n.hash(&mut hasher);
            all = all.rotate_left(1) ^ hasher.finish();
        }
    }
    all
}

fn xxh64_u64(seed: &u64, items: &[u64], _: &[u64], turns: u64) -> u64 {
    let mut all: u64 = 0;
    for turn in 0..turns {
        for n in items {
            let mut hasher = Xxh64::with_seed(seed.wrapping_add(turn));
            n.hash(&mut hasher);
            all = all.rotate_left(1) ^ hasher.finish();
        }
    }
    all
}

/// Hashes a string as its `Hash` does.
fn murmur3_text(seed: &u64, text: &[u8], _: &[u8], turns: u64) -> u64 {
    let mut all = 0;
    for turn in 0..turns {
        let mut hasher = Murmur3::with_seed(seed.wrapping_add(turn));
        hasher.write(text);
        hasher.write_u8(0xFF);
        all ^= hasher.finish();
    }
    all
}

/// Hashes a string as its `Hash` does.
fn xxh64_text(seed: &u64, text: &[u8], _: &[u8], turns: u64) -> u64 {
    let mut all = 0;
    for turn in 0..turns {
        let mut hasher = Xxh64::with_seed(seed.wrapping_add(turn));
        hasher.write(text);
        hasher.write_u8(0xFF);
        all ^= hasher.finish();
    }
    all
}

pub fn rows(t: &Table) {
    let seed = black_box(9001);
    let items = numbers(0, 4096);
    row!(t, "hash, Murmur3, u64", 100, 4096; rattle_murmur3_u64, murmur3_u64; seed, items, []);
    row!(t, "hash, XXH64, u64", 100, 4096; rattle_xxh64_u64, xxh64_u64; seed, items, []);
    for len in [8, 15, 40, 100, 1 << 20] {
        let text = vec![b'a'; len];
        let turns = if len > 1000 { 10 } else { 200_000 };
        let name = |hash| format!("hash, {hash}, text of {len} bytes");
        row!(t, &name("Murmur3"), turns, 1; rattle_murmur3_text, murmur3_text; seed, text, []);
        row!(t, &name("XXH64"), turns, 1; rattle_xxh64_text, xxh64_text; seed, text, []);
    }
}
