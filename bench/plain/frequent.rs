//! A sketch of frequent items over a table of counters by linear probing: items, counts and drifts in three vectors.

use super::image::{Reader, Refusal, Writer};
use super::murmur3::Murmur3;
use std::borrow::Borrow;
use std::hash::{Hash, Hasher};

pub const MAX_SAMPLE_SIZE: usize = 1024;

/// The table. A slot is free if its drift is 0. Otherwise the drift is one more than its distance from its item's home slot.
pub struct Table<T> {
    items: Vec<Option<T>>,
    counts: Vec<u64>,
    drifts: Vec<u16>,
    active: usize,
}

impl<T: Eq + Hash> Table<T> {
    pub fn new(size: usize) -> Self {
        Table {
            items: (0..size).map(|_| None).collect(),
            counts: vec![0; size],
            drifts: vec![0; size],
            active: 0,
        }
    }

    pub fn len(&self) -> usize {
        self.items.len()
    }

    pub fn active(&self) -> usize {
        self.active
    }

    fn capacity(&self) -> usize {
        self.len() / 4 * 3
    }

    /// Returns the slot of an item, or the free slot for it, and the drift there.
    fn find<Q: Eq + Hash + ?Sized>(&self, item: &Q) -> (usize, usize)
    where
        T: Borrow<Q>,
    {
        let mut hasher = Murmur3::with_seed(9001);
        item.hash(&mut hasher);
        let mask = self.len() - 1;
        let mut place = hasher.finish() as usize & mask;
        let mut drift = 1;
        while self.drifts[place] > 0 {
            if self.items[place].as_ref().is_some_and(|there| there.borrow() == item) {
                break;
            }
            place = (place + 1) & mask;
            drift += 1;
        }
        (place, drift)
    }

    pub fn get<Q: Eq + Hash + ?Sized>(&self, item: &Q) -> u64
    where
        T: Borrow<Q>,
    {
        let (place, _) = self.find(item);
        if self.drifts[place] > 0 { self.counts[place] } else { 0 }
    }

    fn put(&mut self, (place, drift): (usize, usize), item: T, count: u64) {
        self.items[place] = Some(item);
        self.counts[place] = count;
        self.drifts[place] = drift as u16;
        self.active += 1;
    }

    pub fn add(&mut self, item: T, count: u64) {
        let found = self.find(&item);
        if self.drifts[found.0] == 0 {
            self.put(found, item, count);
        } else {
            self.counts[found.0] += count;
        }
    }

    pub fn add_ref<Q: Eq + Hash + ToOwned<Owned = T> + ?Sized>(&mut self, item: &Q, count: u64)
    where
        T: Borrow<Q>,
    {
        let found = self.find(item);
        if self.drifts[found.0] == 0 {
            self.put(found, item.to_owned(), count);
        } else {
            self.counts[found.0] += count;
        }
    }

    fn double(&mut self) {
        let old = std::mem::replace(self, Table::new(2 * self.len()));
        for (item, count) in old.items.into_iter().zip(old.counts) {
            if let Some(item) = item {
                self.add(item, count);
            }
        }
    }

    fn remove(&mut self, mut hole: usize) {
        let mask = self.len() - 1;
        self.drifts[hole] = 0;
        self.items[hole] = None;
        let mut place = (hole + 1) & mask;
        let mut shift = 1;
        while self.drifts[place] != 0 {
            if self.drifts[place] > shift {
                self.items[hole] = self.items[place].take();
                self.counts[hole] = self.counts[place];
                self.drifts[hole] = self.drifts[place] - shift;
                self.drifts[place] = 0;
                hole = place;
                shift = 0;
            }
            place = (place + 1) & mask;
            shift += 1;
        }
        self.active -= 1;
    }

    /// Subtracts a sample's middle count from each count, and removes the items whose count is then 0.
    fn purge(&mut self, sample_size: usize) -> u64 {
        let size = sample_size.min(self.active).min(MAX_SAMPLE_SIZE);
        let mut sample = Vec::with_capacity(size);
        for (count, drift) in self.counts.iter().zip(&self.drifts) {
            if sample.len() == size {
                break;
            }
            if *drift > 0 {
                sample.push(*count);
            }
        }
        let (_, middle, _) = sample.select_nth_unstable(size / 2);
        let middle = *middle;
        for count in &mut self.counts {
            *count = count.saturating_sub(middle);
        }
        let mut free = self.len() - 1;
        while self.drifts[free] > 0 {
            free -= 1;
        }
        for place in (0..free).rev().chain((free..self.len()).rev()) {
            if self.drifts[place] > 0 && self.counts[place] == 0 {
                self.remove(place);
            }
        }
        middle
    }

    pub fn iter(&self) -> Walk<'_, T> {
        let stride = (self.len() as f64 * 0.618_033_988_749_894_9) as usize | 1;
        Walk {
            table: self,
            place: 0usize.wrapping_sub(stride),
            stride,
            seen: 0,
        }
    }

    /// Returns the counters in the order of their slots.
    fn entries(&self) -> Vec<(&T, u64)> {
        let mut entries = Vec::with_capacity(self.active);
        for place in 0..self.len() {
            if self.drifts[place] > 0
                && let Some(item) = &self.items[place]
            {
                entries.push((item, self.counts[place]));
            }
        }
        entries
    }
}

pub struct Walk<'a, T> {
    table: &'a Table<T>,
    place: usize,
    stride: usize,
    seen: usize,
}

impl<'a, T> Iterator for Walk<'a, T> {
    type Item = (&'a T, u64);

    fn next(&mut self) -> Option<Self::Item> {
        if self.seen >= self.table.active {
            return None;
        }
        loop {
            self.place = self.place.wrapping_add(self.stride) & (self.table.items.len() - 1);
            if self.table.drifts[self.place] > 0 {
                self.seen += 1;
                let item = self.table.items[self.place].as_ref().expect("an item in a taken slot");
                return Some((item, self.table.counts[self.place]));
            }
        }
    }
}

/// A row of a report.
pub struct Row<T> {
    pub item: T,
    pub estimate: u64,
    pub upper_bound: u64,
    pub lower_bound: u64,
}

/// The sketch.
pub struct Frequent<T> {
    table: Table<T>,
    capacity: usize,
    error: u64,
    total: u64,
    max_size: usize,
    sample_size: usize,
}

impl<T: Eq + Hash> Frequent<T> {
    pub fn new(max_size: usize) -> Self {
        Self::with_sizes(max_size, 8, MAX_SAMPLE_SIZE)
    }

    /// Returns a sketch whose purges sample at most this number of counters. The published crate does not offer this
    /// choice.
    pub fn with_sample_size(max_size: usize, sample_size: usize) -> Self {
        Self::with_sizes(max_size, 8, sample_size)
    }

    fn with_sizes(max_size: usize, size: usize, sample_size: usize) -> Self {
        let table = Table::new(size);
        Frequent {
            capacity: table.capacity(),
            table,
            error: 0,
            total: 0,
            max_size,
            sample_size: sample_size.min(max_size / 4 * 3),
        }
    }

    pub fn total(&self) -> u64 {
        self.total
    }

    pub fn error(&self) -> u64 {
        self.error
    }

    pub fn active(&self) -> usize {
        self.table.active
    }

    fn weigh(&mut self, count: u64) {
        self.total = self.total.checked_add(count).expect("the total passes 64 bits");
    }

    pub fn update(&mut self, item: T) {
        self.update_with_count(item, 1);
    }

    pub fn update_with_count(&mut self, item: T, count: u64) {
        if count == 0 {
            return;
        }
        self.weigh(count);
        self.table.add(item, count);
        self.double_or_purge();
    }

    pub fn update_with_count_ref<Q: Eq + Hash + ToOwned<Owned = T> + ?Sized>(&mut self, item: &Q, count: u64)
    where
        T: Borrow<Q>,
    {
        if count == 0 {
            return;
        }
        self.weigh(count);
        self.table.add_ref(item, count);
        self.double_or_purge();
    }

    fn double_or_purge(&mut self) {
        if self.table.active <= self.capacity {
            return;
        }
        if self.table.len() < self.max_size {
            self.table.double();
            self.capacity = self.table.capacity();
        } else {
            self.error += self.table.purge(self.sample_size);
        }
    }

    pub fn lower_bound<Q: Eq + Hash + ?Sized>(&self, item: &Q) -> u64
    where
        T: Borrow<Q>,
    {
        self.table.get(item)
    }

    pub fn estimate<Q: Eq + Hash + ?Sized>(&self, item: &Q) -> u64
    where
        T: Borrow<Q>,
    {
        match self.table.get(item) {
            0 => 0,
            count => count + self.error,
        }
    }

    pub fn merge(&mut self, other: &Self)
    where
        T: Clone,
    {
        if other.total == 0 {
            return;
        }
        let total = self.total.checked_add(other.total).expect("the total passes 64 bits");
        for (item, count) in other.table.iter() {
            self.update_with_count_ref(item, count);
        }
        self.error += other.error;
        self.total = total;
    }

    /// Returns the rows of all items that may be above the error.
    pub fn frequent_items(&self) -> Vec<Row<T>>
    where
        T: Clone,
    {
        let mut rows = vec![];
        for (item, count) in self.table.iter() {
            let upper_bound = count + self.error;
            if upper_bound > self.error {
                rows.push(Row {
                    item: item.clone(),
                    estimate: upper_bound,
                    upper_bound,
                    lower_bound: count,
                });
            }
        }
        rows.sort_by_key(|row| std::cmp::Reverse(row.estimate));
        rows
    }
}

/// An item that can be written into an image.
pub trait Written: Sized + Eq + Hash {
    fn size(&self) -> usize;
    fn write(&self, image: &mut Writer);
    fn read(image: &mut Reader<'_>) -> Result<Self, Refusal>;
}

impl Written for i64 {
    fn size(&self) -> usize {
        8
    }

    fn write(&self, image: &mut Writer) {
        image.u64(*self as u64);
    }

    fn read(image: &mut Reader<'_>) -> Result<Self, Refusal> {
        Ok(image.u64()? as i64)
    }
}

impl Written for String {
    fn size(&self) -> usize {
        4 + self.len()
    }

    fn write(&self, image: &mut Writer) {
        image.u32(self.len() as u32);
        image.bytes(self.as_bytes());
    }

    fn read(image: &mut Reader<'_>) -> Result<Self, Refusal> {
        let len = image.u32()? as usize;
        let bytes = image.rest().get(..len).ok_or(Refusal::TooShort)?;
        let text = std::str::from_utf8(bytes).map_err(|_| Refusal::Malformed)?.to_owned();
        image.skip(len);
        Ok(text)
    }
}

impl<T: Written> Frequent<T> {
    /// Returns the image of a sketch that is not empty.
    pub fn serialize(&self) -> Vec<u8> {
        let entries = self.table.entries();
        let sizes: usize = entries.iter().map(|(item, _)| item.size()).sum();
        let mut image = Writer::with_capacity(32 + 8 * entries.len() + sizes);
        let lg = |size: usize| size.trailing_zeros() as u8;
        for byte in [4, 1, 10, lg(self.max_size), lg(self.table.len()), 0] {
            image.u8(byte);
        }
        image.u16(0);
        image.u32(entries.len() as u32);
        image.u32(0);
        image.u64(self.total);
        image.u64(self.error);
        for (_, count) in &entries {
            image.u64(*count);
        }
        for (item, _) in &entries {
            item.write(&mut image);
        }
        image.into_bytes()
    }

    /// Returns the sketch of an image. The sketch must not be empty.
    pub fn deserialize(image: &[u8]) -> Result<Self, Refusal> {
        let mut image = Reader::new(image);
        let longs = image.kind(10)? & 63;
        let (lg_max, lg_size, flags) = (image.u8()?, image.u8()?, image.u8()?);
        image.u16()?;
        if lg_size < 3 || lg_max > 30 || lg_size > lg_max || longs != 4 || flags & 5 != 0 {
            return Err(Refusal::Malformed);
        }
        let active = image.u32()? as usize;
        image.u32()?;
        let (total, error) = (image.u64()?, image.u64()?);
        if active > (1 << lg_size) / 4 * 3 || total == 0 {
            return Err(Refusal::Malformed);
        }
        if image.rest().len() < 8 * active {
            return Err(Refusal::TooShort);
        }
        let mut counts = Vec::with_capacity(active);
        let mut left = total;
        for _ in 0..active {
            let count = image.u64()?;
            left = left.checked_sub(count).ok_or(Refusal::Malformed)?;
            counts.push(count);
        }
        let mut items = Vec::with_capacity(active);
        for _ in 0..active {
            items.push(T::read(&mut image)?);
        }
        let mut sketch = Frequent::with_sizes(1 << lg_max, 1 << lg_size, MAX_SAMPLE_SIZE);
        for (item, count) in items.into_iter().zip(counts) {
            sketch.update_with_count(item, count);
        }
        sketch.total = total;
        sketch.error = error;
        Ok(sketch)
    }
}
