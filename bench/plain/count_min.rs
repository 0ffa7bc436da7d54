//! A Count-Min sketch. Each row has a hash of the item, and its remainder by the number of buckets. The remainder is computed by
//! products of 128 bits, or by a mask if the number is a power of two.

use super::image::{Reader, Refusal, Writer};
use super::murmur3::Murmur3;
use std::hash::{Hash, Hasher};

fn hash_of<T: Hash>(item: &T, seed: u64) -> u64 {
    let mut hasher = Murmur3::with_seed(seed);
    item.hash(&mut hasher);
    hasher.finish()
}

/// The number of buckets of a row.
struct Buckets {
    count: u32,
    multiplier: u128,
}

impl Buckets {
    fn new(count: u32) -> Self {
        Buckets {
            count,
            multiplier: u128::MAX / u128::from(count) + 1,
        }
    }

    #[inline]
    fn of(&self, hash: u64) -> usize {
        if self.count.is_power_of_two() {
            return (hash & u64::from(self.count - 1)) as usize;
        }
        let fraction = self.multiplier.wrapping_mul(u128::from(hash));
        let count = u128::from(self.count);
        let low = u128::from(fraction as u64) * count;
        let high = (fraction >> 64) * count;
        ((high + (low >> 64)) >> 64) as usize
    }
}

/// A type of cells.
pub trait Cell: Copy + Ord + std::ops::Add<Output = Self> {
    const ZERO: Self;
    const ONE: Self;
    const GREATEST: Self;

    fn distance(self) -> Option<Self>;
    fn plus(self, other: Self) -> Option<Self>;
    fn to_bytes(self) -> [u8; 8];
    fn from_bytes(bytes: [u8; 8]) -> Self;
}

impl Cell for u64 {
    const ZERO: u64 = 0;
    const ONE: u64 = 1;
    const GREATEST: u64 = u64::MAX;

    #[inline(always)]
    fn distance(self) -> Option<u64> {
        Some(self)
    }

    #[inline(always)]
    fn plus(self, other: u64) -> Option<u64> {
        self.checked_add(other)
    }

    #[inline(always)]
    fn to_bytes(self) -> [u8; 8] {
        self.to_le_bytes()
    }

    #[inline(always)]
    fn from_bytes(bytes: [u8; 8]) -> u64 {
        u64::from_le_bytes(bytes)
    }
}

impl Cell for i64 {
    const ZERO: i64 = 0;
    const ONE: i64 = 1;
    const GREATEST: i64 = i64::MAX;

    #[inline(always)]
    fn distance(self) -> Option<i64> {
        self.checked_abs()
    }

    #[inline(always)]
    fn plus(self, other: i64) -> Option<i64> {
        self.checked_add(other)
    }

    #[inline(always)]
    fn to_bytes(self) -> [u8; 8] {
        self.to_le_bytes()
    }

    #[inline(always)]
    fn from_bytes(bytes: [u8; 8]) -> i64 {
        i64::from_le_bytes(bytes)
    }
}

pub struct CountMin<T> {
    buckets: Buckets,
    seed: u64,
    seed_hash: u16,
    total: T,
    cells: Vec<T>,
    row_seeds: Vec<u64>,
}

impl<T: Cell> CountMin<T> {
    pub fn new(num_hashes: u8, num_buckets: u32, seed: u64) -> Self {
        CountMin {
            buckets: Buckets::new(num_buckets),
            seed,
            seed_hash: hash_of(&seed, 0) as u16,
            total: T::ZERO,
            cells: vec![T::ZERO; num_hashes as usize * num_buckets as usize],
            row_seeds: (0..u64::from(num_hashes)).map(|row| hash_of(&row, seed)).collect(),
        }
    }

    pub fn total(&self) -> T {
        self.total
    }

    pub fn num_buckets(&self) -> u32 {
        self.buckets.count
    }

    /// Returns the index of the cell of an item in a row.
    fn place<I: Hash>(&self, item: &I, row: usize, seed: u64) -> usize {
        row * self.buckets.count as usize + self.buckets.of(hash_of(item, seed))
    }

    pub fn update<I: Hash>(&mut self, item: I) {
        self.update_with_weight(item, T::ONE);
    }

    pub fn update_with_weight<I: Hash>(&mut self, item: I, weight: T) {
        if weight == T::ZERO {
            return;
        }
        let distance = weight.distance();
        self.total = distance
            .and_then(|distance| self.total.plus(distance))
            .expect("the total passes its type");
        for (row, seed) in self.row_seeds.iter().enumerate() {
            let place = self.place(&item, row, *seed);
            self.cells[place] = self.cells[place] + weight;
        }
    }

    pub fn estimate<I: Hash>(&self, item: I) -> T {
        let mut least = T::GREATEST;
        for (row, seed) in self.row_seeds.iter().enumerate() {
            let cell = self.cells[self.place(&item, row, *seed)];
            if cell < least {
                least = cell;
            }
        }
        least
    }

    pub fn merge(&mut self, other: &CountMin<T>) -> Result<(), Refusal> {
        if self.row_seeds.len() != other.row_seeds.len()
            || self.buckets.count != other.buckets.count
            || self.seed != other.seed
        {
            return Err(Refusal::Mismatch);
        }
        self.total = self.total.plus(other.total).ok_or(Refusal::WeightOverflow)?;
        for (cell, more) in self.cells.iter_mut().zip(&other.cells) {
            *cell = *cell + *more;
        }
        Ok(())
    }

    /// Returns the image of a sketch whose total is not 0.
    pub fn serialize(&self) -> Vec<u8> {
        let mut image = Writer::with_capacity(24 + 8 * self.cells.len());
        for byte in [2, 1, 18, 0] {
            image.u8(byte);
        }
        image.u32(0);
        image.u32(self.buckets.count);
        image.u8(self.row_seeds.len() as u8);
        image.u16(self.seed_hash);
        image.u8(0);
        image.bytes(&self.total.to_bytes());
        for cell in &self.cells {
            image.bytes(&cell.to_bytes());
        }
        image.into_bytes()
    }

    /// Returns the sketch of an image. The total must not be 0.
    pub fn deserialize(image: &[u8], seed: u64) -> Result<Self, Refusal> {
        let mut image = Reader::new(image);
        let longs = image.kind(18)?;
        let flags = image.u8()?;
        if longs != 2 || flags & 1 != 0 {
            return Err(Refusal::Malformed);
        }
        image.u32()?;
        let (num_buckets, num_hashes, seed_hash) = (image.u32()?, image.u8()?, image.u16()?);
        image.u8()?;
        if seed_hash != hash_of(&seed, 0) as u16 {
            return Err(Refusal::Mismatch);
        }
        let num_cells = num_hashes as usize * num_buckets as usize;
        if num_hashes == 0 || num_buckets < 3 || num_cells >= 1 << 30 {
            return Err(Refusal::Malformed);
        }
        if image.rest().len() < 8 + 8 * num_cells {
            return Err(Refusal::TooShort);
        }
        let mut sketch = CountMin::new(num_hashes, num_buckets, seed);
        sketch.total = T::from_bytes(image.array()?);
        if sketch.total < T::ZERO {
            return Err(Refusal::Malformed);
        }
        for cell in &mut sketch.cells {
            *cell = T::from_bytes(image.array()?);
            if cell.distance().is_none_or(|distance| distance > sketch.total) {
                return Err(Refusal::Malformed);
            }
        }
        Ok(sketch)
    }
}

impl CountMin<u64> {
    pub fn halve(&mut self) {
        for cell in &mut self.cells {
            *cell >>= 1;
        }
        self.total >>= 1;
    }

    /// Decays by a factor above 0 and below 1.
    pub fn decay(&mut self, factor: f64) {
        for cell in &mut self.cells {
            *cell = scaled(*cell, factor);
        }
        self.total = scaled(self.total, factor);
    }

    /// Decays by a fraction, which the published crate does not offer.
    pub fn decay_by(&mut self, numerator: u64, denominator: u64) {
        let scaled = |value: u64| (u128::from(value) * u128::from(numerator) / u128::from(denominator)) as u64;
        for cell in &mut self.cells {
            *cell = scaled(*cell);
        }
        self.total = scaled(self.total);
    }
}

/// Returns a value times a factor above 0 and below 1, rounded down: a product with the factor's digits, and a shift.
#[inline]
fn scaled(value: u64, factor: f64) -> u64 {
    let digits = factor.to_bits() & ((1 << 52) - 1);
    let (digits, shift) = match (factor.to_bits() >> 52) as u32 & 0x7FF {
        0 => (digits, 1074),
        exponent => (digits | 1 << 52, 1075 - exponent),
    };
    (u128::from(value) * u128::from(digits)).checked_shr(shift).unwrap_or(0) as u64
}
