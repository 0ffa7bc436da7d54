//! Filters in the bytes of an image.

use crate::error::{must, Error};
use crate::fed::{with_item, Item};
use crate::handle::{zeros, Image};
use crate::items::Batch;
use std::fmt;
use std::hash::Hash;

/// A filter in the bytes of its image, such as a mapped file. It neither copies them nor allocates, and many
/// threads may use it.
///
/// ```
/// use datasketches_rattle::bloom::{BloomFilterBuilder, BloomFilterView};
///
/// let mut filter = BloomFilterBuilder::with_accuracy(1000, 0.01).build()?;
/// filter.insert("apple");
/// let image = filter.serialize();
/// let view = BloomFilterView::new(&image)?;
/// assert!(view.contains(&"apple"));
/// # Ok::<(), datasketches_rattle::error::Error>(())
/// ```
///
/// It does not outlive its bytes:
///
/// ```compile_fail,E0597
/// use datasketches_rattle::bloom::{BloomFilterBuilder, BloomFilterView};
///
/// let view = {
///     let image = BloomFilterBuilder::with_size(64, 1).build().unwrap().serialize();
///     BloomFilterView::new(&image).unwrap()
/// };
/// view.contains(&1);
/// ```
#[derive(Clone, Copy)]
pub struct BloomFilterView<'a>(Image<'a>);

impl<'a> BloomFilterView<'a> {
    /// Creates a view, in constant time.
    ///
    /// # Errors
    ///
    /// Returns the error of the image's first failed check, as `BloomFilter::deserialize` does. The number of
    /// set bits is not checked.
    pub fn new(image: &'a [u8]) -> Result<Self, Error> {
        let view = Image::new(image);
        view.contains(Item::Number(0))?;
        Ok(BloomFilterView(view))
    }

    /// Returns the bytes of the image, and of what follows it.
    #[must_use]
    pub fn as_bytes(&self) -> &'a [u8] {
        self.0.bytes()
    }

    /// Returns whether the filter contains an item.
    #[inline]
    #[must_use]
    pub fn contains<T: Hash + ?Sized>(&self, item: &T) -> bool {
        must(self.try_contains(item))
    }

    /// Returns whether the filter contains an item, or an error if a long item has no memory.
    #[inline]
    pub fn try_contains<T: Hash + ?Sized>(&self, item: &T) -> Result<bool, Error> {
        with_item(item, |item| self.0.contains(item))
    }

    /// Returns for each item whether the filter contains it.
    ///
    /// # Errors
    ///
    /// Returns an error if offsets are wrong, a text is not UTF-8, items lie in the bytes of the view, or
    /// memory runs out.
    pub fn contains_all<B: Batch + ?Sized>(&self, items: &B) -> Result<Vec<bool>, Error> {
        let mut results = zeros(items.count()?)?;
        self.contains_all_into(items, &mut results)?;
        Ok(results)
    }

    /// Writes for each item whether the filter contains it.
    ///
    /// # Errors
    ///
    /// Returns the errors of [`contains_all`](Self::contains_all), and an error unless there are as many
    /// results as items.
    pub fn contains_all_into<B: Batch + ?Sized>(&self, items: &B, results: &mut [bool]) -> Result<(), Error> {
        items.check_room(results.len())?;
        items.blocks(&mut |items, part| self.0.contains_all(items, part.of_mut(results)))
    }
}

impl fmt::Debug for BloomFilterView<'_> {
    fn fmt(&self, formatter: &mut fmt::Formatter<'_>) -> fmt::Result {
        formatter.debug_struct("BloomFilterView").field("bytes", &self.as_bytes().len()).finish()
    }
}
