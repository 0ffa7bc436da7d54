//! Items and weights in fields of records, which are lines or records of CSV.
//!
//! ```
//! use datasketches_rattle::fields::Fields;
//! use datasketches_rattle::frequencies::FrequentItemsSketch;
//!
//! let mut heavy = FrequentItemsSketch::<String>::new(64)?;
//! let table = b"5,apple\n7,\"pear, green\"\n2,apple\n";
//! let read = heavy.update_fields(table, Fields::csv(b',', 1).with_weight(0))?;
//! assert_eq!((read.num_records, read.num_items), (3, 3));
//! assert_eq!(heavy.estimate(&"apple".to_string()), 7);
//! # Ok::<(), Box<dyn std::error::Error>>(())
//! ```

use crate::bloom::BloomFilter;
use crate::countmin::CountMinSketch;
use crate::error::Error;
use crate::frequencies::FrequentItemsSketch;
use crate::sys;
use std::fmt;

/// Which fields of records are items and weights. Indices are counted from 0.
#[derive(Clone, Copy, Debug, PartialEq, Eq)]
pub struct Fields {
    format: i32,
    delimiter: u8,
    item: Option<u32>,
    weight: Option<u32>,
}

impl Fields {
    /// Takes a word of each line, between runs of ASCII white space.
    #[must_use]
    pub const fn words(item: u32) -> Self {
        Fields { format: 0, delimiter: 0, item: Some(item), weight: None }
    }

    /// Takes each line. A weight is one of its words.
    #[must_use]
    pub const fn lines() -> Self {
        Fields { format: 0, delimiter: 0, item: None, weight: None }
    }

    /// Takes a field of each line, between single bytes of ASCII. A field may be empty.
    #[must_use]
    pub const fn between(delimiter: u8, item: u32) -> Self {
        Fields { format: 1, delimiter, item: Some(item), weight: None }
    }

    /// Takes a field of each record of RFC 4180, which is read leniently. Delimiters and line ends in quotes belong to
    /// their field.
    #[must_use]
    pub const fn csv(delimiter: u8, item: u32) -> Self {
        Fields { format: 2, delimiter, item: Some(item), weight: None }
    }

    /// Weighs each item by the number in a field of its record, in decimal digits.
    #[must_use]
    pub const fn with_weight(mut self, weight: u32) -> Self {
        self.weight = Some(weight);
        self
    }

    /// Returns the fields for C, or an error for an index that C has for no field.
    fn for_c(self) -> Result<sys::ds_fields, Error> {
        if self.item == Some(u32::MAX) || self.weight == Some(u32::MAX) {
            return Err(Error::of_argument(sys::DS_BAD_ARGUMENT));
        }
        Ok(sys::ds_fields {
            format: self.format,
            delimiter: self.delimiter,
            item: self.item.unwrap_or(u32::MAX),
            weight: self.weight.unwrap_or(u32::MAX),
        })
    }
}

/// The numbers of records, and of those that have an item. The others are left out.
#[derive(Clone, Copy, Debug, PartialEq, Eq)]
#[non_exhaustive]
pub struct FieldsRead {
    /// The number of records.
    pub num_records: usize,
    /// The number of items.
    pub num_items: usize,
}

/// The error of a call on fields, and where the first record with one begins, if it is the error of a record: an item that is
/// not UTF-8, or one without a weight.
#[derive(Clone, Copy, Debug, PartialEq, Eq)]
#[non_exhaustive]
pub struct FieldsError {
    /// The error.
    pub error: Error,
    /// The index of the record's first byte.
    pub offset: Option<usize>,
}

impl fmt::Display for FieldsError {
    fn fmt(&self, formatter: &mut fmt::Formatter<'_>) -> fmt::Result {
        match self.offset {
            Some(offset) => write!(formatter, "{}, record at byte {}", self.error, offset),
            None => self.error.fmt(formatter),
        }
    }
}

impl std::error::Error for FieldsError {}

fn read_of(result: Result<(), Error>, read: sys::ds_fields_read) -> Result<FieldsRead, FieldsError> {
    match result {
        Ok(()) => Ok(FieldsRead { num_records: read.num_records, num_items: read.num_items }),
        Err(error) => {
            let of_record = matches!(error.name(), "InvalidUtf8" | "BadWeight");
            Err(FieldsError { error, offset: if of_record { Some(read.offset) } else { None } })
        }
    }
}

macro_rules! update_fields {
    ($sketch:ty) => {
        impl $sketch {
            /// Adds the weight of each record to that of its item, in order. Records without an item are left out.
            ///
            /// The bytes need not be UTF-8, but items do.
            ///
            /// # Errors
            ///
            /// Returns an error for an item that is not UTF-8 or has no weight, for a delimiter that the format does not
            /// allow, or if the total has no room for all weights. Then nothing is added. If memory runs out, the items
            /// before may be added.
            pub fn update_fields(&mut self, bytes: &[u8], fields: Fields) -> Result<FieldsRead, FieldsError> {
                let fields = fields.for_c().map_err(|error| FieldsError { error, offset: None })?;
                let (result, read) = self.handle_mut().update_fields(bytes, &fields);
                read_of(result, read)
            }
        }
    };
}

update_fields!(FrequentItemsSketch<String>);
update_fields!(CountMinSketch<u64>);
update_fields!(CountMinSketch<i64>);

impl BloomFilter {
    /// Inserts the item of each record, in order. Records without an item are left out.
    ///
    /// # Errors
    ///
    /// Returns an error as `update_fields` of other sketches does. Then nothing is inserted.
    pub fn insert_fields(&mut self, bytes: &[u8], fields: Fields) -> Result<FieldsRead, FieldsError> {
        let fields = fields.for_c().map_err(|error| FieldsError { error, offset: None })?;
        let (result, read) = self.handle_mut().update_fields(bytes, &fields);
        read_of(result, read)
    }
}
