//! A Bloom filter. It takes a remainder by the capacity for each hash, and tests each bit before it sets it.

use super::image::{Reader, Refusal, Writer};
use super::xxhash::Xxh64;
use std::hash::{Hash, Hasher};

pub struct Filter {
    seed: u64,
    num_hashes: u16,
    bits_used: u64,
    words: Box<[u64]>,
}

fn hash_of<T: Hash + ?Sized>(item: &T, seed: u64) -> u64 {
    let mut hasher = Xxh64::with_seed(seed);
    item.hash(&mut hasher);
    hasher.finish()
}

impl Filter {
    pub fn with_size(num_bits: u64, num_hashes: u16, seed: u64) -> Self {
        Filter {
            seed,
            num_hashes,
            bits_used: 0,
            words: vec![0; num_bits.div_ceil(64) as usize].into_boxed_slice(),
        }
    }

    pub fn bits_used(&self) -> u64 {
        self.bits_used
    }

    pub fn capacity(&self) -> usize {
        64 * self.words.len()
    }

    fn hashes<T: Hash + ?Sized>(&self, item: &T) -> (u64, u64) {
        let first = hash_of(item, self.seed);
        (first, hash_of(item, first))
    }

    /// Returns the word and the bit of the item's position with this number.
    fn position(&self, hashes: (u64, u64), number: u16) -> (usize, u64) {
        let hash = hashes.0.wrapping_add(u64::from(number).wrapping_mul(hashes.1));
        let position = (hash >> 1) as usize % self.capacity();
        (position / 64, 1 << (position % 64))
    }

    pub fn insert<T: Hash + ?Sized>(&mut self, item: &T) {
        self.contains_and_insert(item);
    }

    pub fn contains_and_insert<T: Hash + ?Sized>(&mut self, item: &T) -> bool {
        let hashes = self.hashes(item);
        let mut was_there = true;
        for number in 1..=self.num_hashes {
            let (word, bit) = self.position(hashes, number);
            if self.words[word] & bit == 0 {
                self.words[word] |= bit;
                self.bits_used += 1;
                was_there = false;
            }
        }
        was_there
    }

    pub fn contains<T: Hash + ?Sized>(&self, item: &T) -> bool {
        if self.bits_used == 0 {
            return false;
        }
        let hashes = self.hashes(item);
        for number in 1..=self.num_hashes {
            let (word, bit) = self.position(hashes, number);
            if self.words[word] & bit == 0 {
                return false;
            }
        }
        true
    }

    pub fn reset(&mut self) {
        self.words.fill(0);
        self.bits_used = 0;
    }

    fn is_compatible(&self, other: &Filter) -> bool {
        self.words.len() == other.words.len() && self.num_hashes == other.num_hashes && self.seed == other.seed
    }

    pub fn union(&mut self, other: &Filter) -> Result<(), Refusal> {
        if !self.is_compatible(other) {
            return Err(Refusal::Mismatch);
        }
        let mut bits_used = 0;
        for (word, other) in self.words.iter_mut().zip(&other.words) {
            *word |= *other;
            bits_used += u64::from(word.count_ones());
        }
        self.bits_used = bits_used;
        Ok(())
    }

    pub fn intersect(&mut self, other: &Filter) -> Result<(), Refusal> {
        if !self.is_compatible(other) {
            return Err(Refusal::Mismatch);
        }
        let mut bits_used = 0;
        for (word, other) in self.words.iter_mut().zip(&other.words) {
            *word &= *other;
            bits_used += u64::from(word.count_ones());
        }
        self.bits_used = bits_used;
        Ok(())
    }

    /// Returns the image of a filter that is not empty.
    pub fn serialize(&self) -> Vec<u8> {
        let mut image = Writer::with_capacity(32 + 8 * self.words.len());
        for byte in [4, 1, 21, 0] {
            image.u8(byte);
        }
        image.u16(self.num_hashes);
        image.u16(0);
        image.u64(self.seed);
        image.u32(self.words.len() as u32);
        image.u32(0);
        image.u64(self.bits_used);
        for word in &self.words {
            image.u64(*word);
        }
        image.into_bytes()
    }

    /// Returns the filter of an image. The filter must not be empty.
    pub fn deserialize(image: &[u8]) -> Result<Self, Refusal> {
        let mut image = Reader::new(image);
        let longs = image.kind(21)?;
        let flags = image.u8()?;
        if longs != 4 || flags & 4 != 0 {
            return Err(Refusal::Malformed);
        }
        let num_hashes = image.u16()?;
        if num_hashes == 0 || num_hashes > 32767 {
            return Err(Refusal::Malformed);
        }
        image.u16()?;
        let seed = image.u64()?;
        let num_words = image.u32()?;
        if num_words == 0 || num_words > i32::MAX as u32 {
            return Err(Refusal::Malformed);
        }
        image.u32()?;
        let num_words = num_words as usize;
        if image.rest().len() < 8 + 8 * num_words {
            return Err(Refusal::TooShort);
        }
        let stored = image.u64()?;
        let mut words = vec![0u64; num_words].into_boxed_slice();
        let mut bits_used = 0;
        for word in &mut words {
            *word = image.u64()?;
            bits_used += u64::from(word.count_ones());
        }
        if stored != u64::MAX && stored != bits_used {
            return Err(Refusal::Malformed);
        }
        Ok(Filter {
            seed,
            num_hashes,
            bits_used,
            words,
        })
    }
}
