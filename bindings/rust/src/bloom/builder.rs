//! How a filter is created.

use super::BloomFilter;
use crate::error::Error;
use crate::handle::Handle;
use crate::options::DEFAULT_SEED;
use crate::sys;
use std::f64::consts::LN_2;

/// The most hashes of a filter.
const MAX_NUM_HASHES: u16 = i16::MAX as u16;

/// A builder of a [`BloomFilter`]. Nothing is checked before [`build`](Self::build).
#[derive(Clone, Debug)]
pub struct BloomFilterBuilder {
    size: Size,
    seed: u64,
}

#[derive(Clone, Debug)]
enum Size {
    Target { max_items: u64, fpp: f64 },
    Given { num_bits: u64, num_hashes: u16 },
}

impl BloomFilterBuilder {
    /// Creates a builder of a filter for a number of distinct items and a false-positive rate.
    ///
    /// The size is that of the published formulas. A filter takes more items, at a higher rate. For few items or a low
    /// rate it has more false positives: see [`BloomFilter::min_num_bits`](super::BloomFilter::min_num_bits).
    ///
    /// ```
    /// use datasketches_rattle::bloom::BloomFilterBuilder;
    ///
    /// let filter = BloomFilterBuilder::with_accuracy(10_000, 0.01).build().unwrap();
    /// assert_eq!((filter.capacity(), filter.num_hashes()), (95_872, 7));
    /// ```
    #[must_use]
    pub fn with_accuracy(max_items: u64, fpp: f64) -> Self {
        BloomFilterBuilder { size: Size::Target { max_items, fpp }, seed: DEFAULT_SEED }
    }

    /// Creates a builder of a filter with a number of bits, rounded up to words of 64, and of hashes.
    ///
    /// ```
    /// use datasketches_rattle::bloom::BloomFilterBuilder;
    ///
    /// let filter = BloomFilterBuilder::with_size(10_000, 7).build().unwrap();
    /// assert_eq!(filter.capacity(), 10_048);
    /// ```
    #[must_use]
    pub fn with_size(num_bits: u64, num_hashes: u16) -> Self {
        BloomFilterBuilder { size: Size::Given { num_bits, num_hashes }, seed: DEFAULT_SEED }
    }

    /// Sets the seed, which is 9001 otherwise. Filters with different seeds cannot be merged.
    #[must_use]
    pub fn seed(mut self, seed: u64) -> Self {
        self.seed = seed;
        self
    }

    /// Builds an empty filter.
    ///
    /// # Errors
    ///
    /// Returns an error if there are no items or the rate is not above 0 and at most 1, if the filter would
    /// have no bits or more than 137438953152, or if its hashes are not 1 to 32767. Returns an error if
    /// memory runs out.
    pub fn build(self) -> Result<BloomFilter, Error> {
        let (num_bits, num_hashes) = match self.size {
            Size::Target { max_items, fpp } => size_for(max_items, fpp)?,
            Size::Given { num_bits, num_hashes } => (num_bits, num_hashes),
        };
        Handle::new_filter(num_bits, num_hashes, self.seed).map(BloomFilter)
    }
}

/// Returns the bits and hashes of a filter for a number of items and a rate.
fn size_for(max_items: u64, fpp: f64) -> Result<(u64, u16), Error> {
    let is_rate = fpp > 0.0 && fpp <= 1.0;
    if max_items == 0 || !is_rate {
        return Err(Error::of_argument(sys::DS_BAD_NUM_BITS));
    }
    let items = max_items as f64;
    let num_bits = (-items * fpp.ln() / (LN_2 * LN_2)).ceil().max(1.0);
    let num_hashes = (num_bits / items * LN_2).ceil().clamp(1.0, MAX_NUM_HASHES.into());
    Ok((num_bits as u64, num_hashes as u16)) // the library rejects too many bits
}
