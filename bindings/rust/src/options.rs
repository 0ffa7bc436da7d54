//! Keys, and what an image does not say.

/// The seed of filters and Count-Min sketches unless another is chosen.
pub const DEFAULT_SEED: u64 = 9001;

/// A key of two words, under which a table of frequent items hashes. Choose both at random and keep them
/// secret.
#[derive(Clone, Copy, PartialEq, Eq)]
pub struct Key {
    /// The first word.
    pub k0: u64,
    /// The second word.
    pub k1: u64,
}

impl Key {
    /// Creates a key of two words.
    #[must_use]
    pub const fn new(k0: u64, k1: u64) -> Self {
        Key { k0, k1 }
    }

    /// Creates a key of 16 bytes: each word has eight, the lowest first.
    #[must_use]
    pub fn from_bytes(bytes: [u8; 16]) -> Self {
        let both = u128::from_le_bytes(bytes);
        Key { k0: both as u64, k1: (both >> 64) as u64 }
    }
}

impl std::fmt::Debug for Key {
    /// Prints no word, since keys are secret.
    fn fmt(&self, formatter: &mut std::fmt::Formatter<'_>) -> std::fmt::Result {
        formatter.debug_struct("Key").finish_non_exhaustive()
    }
}

/// What an image does not say: how many bytes its sketch may take, and the seed or the key of the sketch.
///
/// ```
/// use datasketches_rattle::countmin::CountMinSketch;
/// use datasketches_rattle::ImageOptions;
///
/// let image = CountMinSketch::<u64>::with_seed(4, 64, 7)?.serialize();
/// let options = ImageOptions::new(1 << 20).seed(7);
/// let counts = CountMinSketch::<u64>::deserialize_with_options(&image, &options)?;
/// assert_eq!(counts.num_buckets(), 64);
/// # Ok::<(), datasketches_rattle::error::Error>(())
/// ```
#[derive(Clone, Copy, Debug)]
pub struct ImageOptions {
    pub(crate) max_bytes: usize,
    pub(crate) seed: u64,
    pub(crate) key: Option<Key>,
}

impl ImageOptions {
    /// Creates options with a limit: `max_bytes` is how many bytes the sketch may take, as its
    /// `estimated_size` counts them.
    #[must_use]
    pub const fn new(max_bytes: usize) -> Self {
        ImageOptions { max_bytes, seed: DEFAULT_SEED, key: None }
    }

    /// Sets the seed of a Count-Min sketch. Other sketches ignore it.
    #[must_use]
    pub const fn seed(mut self, seed: u64) -> Self {
        self.seed = seed;
        self
    }

    /// Sets the key of frequent items, which is drawn from the system otherwise. Other sketches ignore it.
    #[must_use]
    pub const fn key(mut self, key: Key) -> Self {
        self.key = Some(key);
        self
    }
}

impl Default for ImageOptions {
    /// Creates options without a limit.
    fn default() -> Self {
        ImageOptions::new(usize::MAX)
    }
}
