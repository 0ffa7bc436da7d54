//! Cursors that write and read the numbers of images, lowest byte first, and the families of sketches.
//!
//! ```
//! use datasketches_rattle::codec::{SketchBytes, SketchSlice};
//!
//! let mut bytes = SketchBytes::with_capacity(6);
//! bytes.write_u16_le(513);
//! bytes.write_u32_le(7);
//! let image = bytes.into_bytes();
//! let mut cursor = SketchSlice::new(&image);
//! assert_eq!(cursor.read_u16_le()?, 513);
//! assert_eq!(cursor.remaining(), [7, 0, 0, 0]);
//! # Ok::<(), datasketches_rattle::error::Error>(())
//! ```

use crate::error::Error;
use crate::sys;

/// Bytes that grow as numbers are written behind them.
#[derive(Clone, Debug, Default)]
pub struct SketchBytes(Vec<u8>);

macro_rules! writes {
    ($($name:ident $number:ty)*) => { $(
        /// Writes a number, lowest byte first.
        #[inline]
        pub fn $name(&mut self, number: $number) {
            self.write(&number.to_le_bytes());
        }
    )* };
}

impl SketchBytes {
    /// Creates no bytes, with room for `capacity`.
    #[must_use]
    pub fn with_capacity(capacity: usize) -> Self {
        SketchBytes(Vec::with_capacity(capacity))
    }

    /// Writes bytes.
    #[inline]
    pub fn write(&mut self, bytes: &[u8]) {
        self.0.extend_from_slice(bytes);
    }

    writes!(write_u8 u8 write_u16_le u16 write_u32_le u32 write_i32_le i32 write_u64_le u64 write_i64_le i64);

    /// Returns the bytes.
    #[must_use]
    pub fn into_bytes(self) -> Vec<u8> {
        self.0
    }
}

/// A cursor over bytes. A read of more bytes than are left returns the error `InsufficientData`, and the cursor stays.
#[derive(Clone, Debug)]
pub struct SketchSlice<'a>(&'a [u8]);

macro_rules! reads {
    ($($name:ident $number:ty)*) => { $(
        /// Reads a number, lowest byte first.
        ///
        /// # Errors
        ///
        /// Returns `InsufficientData` if fewer bytes are left.
        #[inline]
        pub fn $name(&mut self) -> Result<$number, Error> {
            let mut bytes = [0; std::mem::size_of::<$number>()];
            self.read_exact(&mut bytes)?;
            Ok(<$number>::from_le_bytes(bytes))
        }
    )* };
}

impl<'a> SketchSlice<'a> {
    /// Creates a cursor before the first of the bytes.
    #[must_use]
    pub const fn new(bytes: &'a [u8]) -> Self {
        SketchSlice(bytes)
    }

    /// Returns the bytes that are left.
    #[must_use]
    pub fn remaining(&self) -> &'a [u8] {
        self.0
    }

    /// Skips bytes.
    ///
    /// # Panics
    ///
    /// If fewer are left.
    pub fn advance(&mut self, count: u64) {
        let count = usize::try_from(count).unwrap_or(usize::MAX);
        self.0 = &self.0[count..];
    }

    /// Reads as many bytes as `out` has.
    ///
    /// # Errors
    ///
    /// Returns `InsufficientData` if fewer bytes are left. Then `out` stays as it was.
    pub fn read_exact(&mut self, out: &mut [u8]) -> Result<(), Error> {
        if self.0.len() < out.len() {
            return Err(Error::of_data(sys::DS_INSUFFICIENT_DATA));
        }
        let (first, rest) = self.0.split_at(out.len());
        out.copy_from_slice(first);
        self.0 = rest;
        Ok(())
    }

    reads!(read_u8 u8 read_u16_le u16 read_u32_le u32 read_i32_le i32 read_u64_le u64 read_i64_le i64);
}

pub mod family {
    //! The families of sketches in images.

    use crate::error::Error;
    use crate::sys;

    /// A family: its number in an image, and the range of its preamble's length.
    #[derive(Clone, Copy, Debug, PartialEq, Eq)]
    #[non_exhaustive]
    pub struct Family {
        /// The number of the family in an image.
        pub id: u8,
        /// The minimum length of a preamble, in numbers of 8 bytes.
        pub min_pre_longs: u8,
        /// The maximum length of a preamble, in numbers of 8 bytes.
        pub max_pre_longs: u8,
    }

    impl Family {
        /// The family of frequent items.
        pub const FREQUENCY: Family = Family { id: 10, min_pre_longs: 1, max_pre_longs: 4 };
        /// The family of Count-Min sketches.
        pub const COUNTMIN: Family = Family { id: 18, min_pre_longs: 2, max_pre_longs: 2 };
        /// The family of Bloom filters.
        pub const BLOOMFILTER: Family = Family { id: 21, min_pre_longs: 3, max_pre_longs: 4 };

        /// Checks that `id` is the number of this family.
        ///
        /// # Errors
        ///
        /// Returns `BadFamily` if it is another.
        pub fn validate_id(&self, id: u8) -> Result<(), Error> {
            if id == self.id {
                Ok(())
            } else {
                Err(Error::of_data(sys::DS_BAD_FAMILY))
            }
        }
    }
}
