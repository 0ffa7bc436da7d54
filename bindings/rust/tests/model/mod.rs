//! Models of sketches over `Vec`, which hash by the plain Rust of `bench/plain`, and random numbers. Other tests include this file.
#![allow(dead_code)]

#[rustfmt::skip]
#[path = "../../../../bench/plain"]
pub mod plain {
    #[path = "murmur3.rs"]
    pub mod murmur3;
    #[path = "xxhash.rs"]
    pub mod xxhash;
}

use plain::murmur3::Murmur3;
use plain::xxhash::Xxh64;
use std::hash::{Hash, Hasher};

/// Random numbers from a seed.
pub struct Chance(u64);

impl Chance {
    pub fn new(seed: u64) -> Self {
        Chance(seed.wrapping_mul(0x9E37_79B9_7F4A_7C15) | 1)
    }

    pub fn word(&mut self) -> u64 {
        self.0 ^= self.0 << 13;
        self.0 ^= self.0 >> 7;
        self.0 ^= self.0 << 17;
        self.0.wrapping_mul(0x2545_F491_4F6C_DD1D)
    }

    pub fn below(&mut self, limit: u64) -> u64 {
        self.word() % limit
    }

    pub fn string(&mut self) -> String {
        let length = self.below(40);
        (0..length).map(|_| ['a', 'b', 'ü', '7', ' ', '猫'][self.below(6) as usize]).collect()
    }
}

fn hash_of<T: Hash + ?Sized>(item: &T, mut hasher: impl Hasher) -> u64 {
    item.hash(&mut hasher);
    hasher.finish()
}

/// A filter as its words, by `docs/FORMATS.md`.
#[derive(Clone)]
pub struct Filter {
    pub words: Vec<u64>,
    pub num_hashes: u16,
    pub seed: u64,
}

impl Filter {
    pub fn new(num_words: usize, num_hashes: u16, seed: u64) -> Self {
        Filter { words: vec![0; num_words], num_hashes, seed }
    }

    pub fn positions<T: Hash + ?Sized>(&self, item: &T) -> Vec<usize> {
        let first = hash_of(item, Xxh64::with_seed(self.seed));
        let second = hash_of(item, Xxh64::with_seed(first));
        let all = 64 * self.words.len() as u64;
        let position = |i: u16| first.wrapping_add(second.wrapping_mul(i.into())) / 2 % all;
        (1..=self.num_hashes).map(|i| position(i) as usize).collect()
    }

    pub fn insert<T: Hash + ?Sized>(&mut self, item: &T) {
        for position in self.positions(item) {
            self.words[position / 64] |= 1 << (position % 64);
        }
    }

    pub fn contains<T: Hash + ?Sized>(&self, item: &T) -> bool {
        self.positions(item).iter().all(|position| self.words[position / 64] >> (position % 64) & 1 == 1)
    }

    pub fn bits_used(&self) -> u64 {
        self.words.iter().map(|word| u64::from(word.count_ones())).sum()
    }

    pub fn image(&self) -> Vec<u8> {
        let used = self.bits_used();
        let mut image = vec![if used > 0 { 4 } else { 3 }, 1, 21, if used > 0 { 0 } else { 4 }];
        image.extend(self.num_hashes.to_le_bytes());
        image.extend([0, 0]);
        image.extend(self.seed.to_le_bytes());
        image.extend((self.words.len() as u64).to_le_bytes());
        if used > 0 {
            image.extend(used.to_le_bytes());
            image.extend(self.words.iter().flat_map(|word| word.to_le_bytes()));
        }
        image
    }
}

/// A Count-Min sketch as its cells, with weights of any sign, by `docs/FORMATS.md`.
#[derive(Clone)]
pub struct Counts {
    pub rows: Vec<Vec<i128>>,
    pub total: i128,
    pub seed: u64,
}

impl Counts {
    pub fn new(num_hashes: u8, num_buckets: u32, seed: u64) -> Self {
        Counts { rows: vec![vec![0; num_buckets as usize]; num_hashes.into()], total: 0, seed }
    }

    fn buckets<T: Hash + ?Sized>(&self, item: &T) -> Vec<usize> {
        let row_seed = |row: usize| hash_of(&(row as u64), Murmur3::with_seed(self.seed));
        let bucket =
            |row: usize| hash_of(item, Murmur3::with_seed(row_seed(row))) % self.rows[0].len() as u64;
        (0..self.rows.len()).map(|row| bucket(row) as usize).collect()
    }

    pub fn update<T: Hash + ?Sized>(&mut self, item: &T, weight: i128) {
        self.total += weight.abs();
        let buckets = self.buckets(item);
        for (row, bucket) in self.rows.iter_mut().zip(buckets) {
            row[bucket] += weight;
        }
    }

    pub fn estimate<T: Hash + ?Sized>(&self, item: &T) -> i128 {
        let buckets = self.buckets(item);
        self.rows.iter().zip(buckets).map(|(row, bucket)| row[bucket]).min().unwrap()
    }

    /// Applies a change to each cell and the total.
    pub fn change(&mut self, change: impl Fn(i128) -> i128) {
        self.total = change(self.total);
        for cell in self.rows.iter_mut().flatten() {
            *cell = change(*cell);
        }
    }

    pub fn image(&self) -> Vec<u8> {
        let empty = self.total == 0;
        let mut image = vec![2, 1, 18, empty.into(), 0, 0, 0, 0];
        image.extend((self.rows[0].len() as u32).to_le_bytes());
        image.push(self.rows.len() as u8);
        image.extend((hash_of(&self.seed, Murmur3::with_seed(0)) as u16).to_le_bytes());
        image.push(0);
        if !empty {
            image.extend((self.total as u64).to_le_bytes());
            image.extend(self.rows.iter().flatten().flat_map(|cell| (*cell as u64).to_le_bytes()));
        }
        image
    }
}
