//! Many items, as the argument of one call: slices of numbers or strings, words and lines of a text, and
//! columns of strings.
//!
//! ```
//! use datasketches_rattle::frequencies::FrequentItemsSketch;
//! use datasketches_rattle::items::words;
//!
//! let mut heavy = FrequentItemsSketch::<String>::new(64)?;
//! heavy.update_all(&words("to be or not to be"))?;
//! heavy.update_all(&["be", "quiet"])?;
//! assert_eq!(heavy.estimate("be"), 3);
//! # Ok::<(), datasketches_rattle::error::Error>(())
//! ```

use crate::error::Error;
use crate::handle::{self, Items, Text};
use crate::sys;
use std::borrow::Cow;

/// The number of items of a block that is passed in one call, if items are not passed whole.
const BLOCK: usize = 128;

/// Many items, in order. This trait is implemented here alone.
///
/// - Slices, arrays and vectors of integers, `bool`, `char`, `&str`, `String`, `Box<str>` or `Cow<str>`. Each
///   item is the one that its `Hash` feeds, as in a single call.
/// - [`words`] and [`lines`] of a text.
/// - [`OffsetStrings`] and [`OffsetStrings32`], strings in one buffer as in Arrow.
/// - [`with_validity`], numbers or strings in one buffer with a bitmap of nulls.
///
/// `u64`, `i64`, texts and strings in one buffer are passed to the library whole, without a copy. Other items
/// go in blocks.
pub trait Batch: sealed::Blocks {
    /// The type of items that frequent items count.
    type Item;
}

/// Numbers or strings that are passed whole, so that they may have a bitmap of nulls. This trait is
/// implemented here alone.
pub trait Rows: Batch + sealed::Whole {}

/// Items of a slice. This trait is implemented here alone.
pub trait BatchItem: sealed::Element {
    /// The type of items that frequent items count.
    type Item;
}

pub(crate) mod sealed {
    use super::{Error, Items};

    /// Where a block's items stand among all: from `start` on, `length` of them or all the others.
    #[derive(Clone, Copy)]
    pub struct Part {
        pub start: usize,
        pub length: Option<usize>,
    }

    impl Part {
        pub const ALL: Part = Part { start: 0, length: None };

        pub fn of<'a, T>(&self, values: &'a [T]) -> &'a [T] {
            match self.length {
                Some(length) => &values[self.start..self.start + length],
                None => values,
            }
        }

        pub fn of_mut<'a, T>(&self, values: &'a mut [T]) -> &'a mut [T] {
            match self.length {
                Some(length) => &mut values[self.start..self.start + length],
                None => values,
            }
        }
    }

    /// A call on a block.
    pub type Call<'c> = dyn FnMut(&Items<'_>, Part) -> Result<(), Error> + 'c;

    pub trait Blocks {
        /// Makes the call on each block, in order, up to the first error.
        fn blocks(&self, call: &mut Call<'_>) -> Result<(), Error>;

        /// Returns the number of items.
        fn count(&self) -> Result<usize, Error>;

        /// Returns an error unless there are as many values as items, or if the call checks this.
        fn check_room(&self, values: usize) -> Result<(), Error>;

        /// Returns whether a single call takes all items.
        fn is_whole(&self) -> bool;
    }

    pub trait Whole {
        fn items(&self) -> Items<'_>;
    }

    pub trait Element: Sized {
        const IS_WHOLE: bool;
        fn blocks(items: &[Self], call: &mut Call<'_>) -> Result<(), Error>;
    }
}

use sealed::{Blocks, Call, Element, Part, Whole};

macro_rules! whole {
    ($($number:ident, $items:ident);*) => {$(
        impl Element for $number {
            const IS_WHOLE: bool = true;

            fn blocks(items: &[Self], call: &mut Call<'_>) -> Result<(), Error> {
                call(&Items::$items(items), Part::ALL)
            }
        }

        impl BatchItem for $number {
            type Item = $number;
        }

        impl Whole for [$number] {
            fn items(&self) -> Items<'_> {
                Items::$items(self)
            }
        }

        impl Rows for [$number] {}
    )*};
}

whole!(u64, u64s; i64, i64s);

/// Makes the call on blocks of items, each of which `put` writes as an element of an array.
fn in_blocks<T, E: Copy>(
    items: &[T],
    none: E,
    put: impl Fn(&T) -> E,
    mut call: impl FnMut(&[E], Part) -> Result<(), Error>,
) -> Result<(), Error> {
    let mut block = [none; BLOCK];
    for (number, items) in items.chunks(BLOCK).enumerate() {
        for (element, item) in block.iter_mut().zip(items) {
            *element = put(item);
        }
        call(&block[..items.len()], Part { start: number * BLOCK, length: Some(items.len()) })?;
    }
    Ok(())
}

macro_rules! words_of_64_bits {
    ($($number:ident)*) => {$(
        impl Element for $number {
            const IS_WHOLE: bool = false;

            fn blocks(items: &[Self], call: &mut Call<'_>) -> Result<(), Error> {
                in_blocks(items, 0, |item| *item as u64, |block, part| call(&Items::u64s(block), part))
            }
        }

        impl BatchItem for $number {
            type Item = $number;
        }
    )*};
}

words_of_64_bits!(usize isize);

macro_rules! fed {
    ($($number:ident, $bytes:literal, $put:expr);*) => {$(
        impl Element for $number {
            const IS_WHOLE: bool = false;

            fn blocks(items: &[Self], call: &mut Call<'_>) -> Result<(), Error> {
                let put: fn(&$number) -> [u8; $bytes] = $put;
                in_blocks(items, [0; $bytes], put, |block, part| {
                    let mut pieces = [Text::EMPTY; BLOCK];
                    for (piece, bytes) in pieces.iter_mut().zip(block) {
                        *piece = Text::new(bytes);
                    }
                    call(&Items::fed(&pieces[..block.len()]), part)
                })
            }
        }

        impl BatchItem for $number {
            type Item = $number;
        }
    )*};
}

fed!(
    u8, 1, |item| item.to_ne_bytes();
    u16, 2, |item| item.to_ne_bytes();
    u32, 4, |item| item.to_ne_bytes();
    u128, 16, |item| item.to_ne_bytes();
    i8, 1, |item| item.to_ne_bytes();
    i16, 2, |item| item.to_ne_bytes();
    i32, 4, |item| item.to_ne_bytes();
    i128, 16, |item| item.to_ne_bytes();
    char, 4, |item| u32::from(*item).to_ne_bytes();
    bool, 1, |item| [u8::from(*item)]
);

macro_rules! strings {
    ($($string:ty)*) => {$(
        impl Element for $string {
            const IS_WHOLE: bool = false;

            fn blocks(items: &[Self], call: &mut Call<'_>) -> Result<(), Error> {
                let mut pieces = [Text::EMPTY; BLOCK];
                for (number, items) in items.chunks(BLOCK).enumerate() {
                    for (piece, item) in pieces.iter_mut().zip(items) {
                        *piece = Text::new(item.as_bytes());
                    }
                    let part = Part { start: number * BLOCK, length: Some(items.len()) };
                    call(&Items::strings(&pieces[..items.len()]), part)?;
                }
                Ok(())
            }
        }

        impl BatchItem for $string {
            type Item = String;
        }
    )*};
}

strings!(&str String Box<str> Cow<'_, str>);

impl<T: BatchItem> Blocks for [T] {
    fn blocks(&self, call: &mut Call<'_>) -> Result<(), Error> {
        T::blocks(self, call)
    }

    fn count(&self) -> Result<usize, Error> {
        Ok(self.len())
    }

    fn check_room(&self, values: usize) -> Result<(), Error> {
        room_for(self.len(), values)
    }

    fn is_whole(&self) -> bool {
        T::IS_WHOLE || self.len() <= BLOCK
    }
}

impl<T: BatchItem> Batch for [T] {
    type Item = T::Item;
}

fn room_for(items: usize, values: usize) -> Result<(), Error> {
    if items == values {
        Ok(())
    } else {
        Err(Error::of_argument(sys::DS_NO_ROOM))
    }
}

macro_rules! as_slice {
    ($(($($word:tt)*) $of:ty;)*) => {$(
        impl<T: BatchItem $($word)*> Blocks for $of {
            fn blocks(&self, call: &mut Call<'_>) -> Result<(), Error> {
                self[..].blocks(call)
            }

            fn count(&self) -> Result<usize, Error> {
                Ok(self.len())
            }

            fn check_room(&self, values: usize) -> Result<(), Error> {
                room_for(self.len(), values)
            }

            fn is_whole(&self) -> bool {
                self[..].is_whole()
            }
        }

        impl<T: BatchItem $($word)*> Batch for $of {
            type Item = T::Item;
        }
    )*};
}

as_slice!(() Vec<T>; (, const N: usize) [T; N];);

macro_rules! rows_as_slice {
    ($($number:ident)*) => {$(
        impl Whole for Vec<$number> {
            fn items(&self) -> Items<'_> {
                self[..].items()
            }
        }

        impl Rows for Vec<$number> {}

        impl<const N: usize> Whole for [$number; N] {
            fn items(&self) -> Items<'_> {
                self[..].items()
            }
        }

        impl<const N: usize> Rows for [$number; N] {}
    )*};
}

rows_as_slice!(u64 i64);

/// The blocks of what is passed whole.
macro_rules! one_block {
    ($(($($word:tt)*) $of:ty, $item:ty;)*) => {$(
        impl<$($word)*> Blocks for $of {
            fn blocks(&self, call: &mut Call<'_>) -> Result<(), Error> {
                call(&self.items(), Part::ALL)
            }

            fn count(&self) -> Result<usize, Error> {
                self.items().count()
            }

            fn check_room(&self, _: usize) -> Result<(), Error> {
                Ok(())
            }

            fn is_whole(&self) -> bool {
                true
            }
        }

        impl<$($word)*> Batch for $of {
            type Item = $item;
        }
    )*};
}

one_block!(
    () Words<'_>, String;
    () Lines<'_>, String;
    () OffsetStrings<'_>, String;
    () OffsetStrings32<'_>, String;
    (B: Rows + ?Sized) WithValidity<'_, B>, B::Item;
);

/// The words of a text: see [`words`].
#[derive(Clone, Copy, Debug)]
pub struct Words<'a>(&'a [u8]);

/// The lines of a text: see [`lines`].
#[derive(Clone, Copy, Debug)]
pub struct Lines<'a>(&'a [u8]);

/// Returns the words of a text as items, in order: its longest runs of bytes that are not ASCII white space
/// (space, tab, LF, FF or CR). Calls return an error if bytes are not UTF-8.
#[must_use]
pub fn words<T: AsRef<[u8]> + ?Sized>(text: &T) -> Words<'_> {
    Words(text.as_ref())
}

/// Returns the lines of a text as items, in order. A line ends at LF or at the end of the text. It has
/// neither the LF nor a CR before it. Calls return an error if bytes are not UTF-8.
#[must_use]
pub fn lines<T: AsRef<[u8]> + ?Sized>(text: &T) -> Lines<'_> {
    Lines(text.as_ref())
}

impl Whole for Words<'_> {
    fn items(&self) -> Items<'_> {
        Items::words(self.0)
    }
}

impl Whole for Lines<'_> {
    fn items(&self) -> Items<'_> {
        Items::lines(self.0)
    }
}

/// The strings of one buffer, by offsets of 64 bits, as in Arrow's `large_utf8`.
///
/// String `i` is the bytes from offset `i` up to offset `i + 1`, so there is one more offset than strings.
/// Calls return an error if an offset is missing, below the one before it or above the number of bytes, or if
/// a string is not UTF-8.
///
/// ```
/// use datasketches_rattle::bloom::BloomFilterBuilder;
/// use datasketches_rattle::items::OffsetStrings;
///
/// let mut filter = BloomFilterBuilder::with_size(1 << 10, 7).build()?;
/// filter.insert_all(&OffsetStrings::new(b"applepear", &[0, 5, 9]))?;
/// assert!(filter.contains(&"pear"));
/// # Ok::<(), datasketches_rattle::error::Error>(())
/// ```
#[derive(Clone, Copy, Debug)]
pub struct OffsetStrings<'a> {
    bytes: &'a [u8],
    offsets: &'a [u64],
}

/// The strings of one buffer, by offsets of 32 bits, as in Arrow's `utf8`: see [`OffsetStrings`].
#[derive(Clone, Copy, Debug)]
pub struct OffsetStrings32<'a> {
    bytes: &'a [u8],
    offsets: &'a [u32],
}

impl<'a> OffsetStrings<'a> {
    /// Creates the strings. Nothing is checked before a call.
    #[must_use]
    pub fn new(bytes: &'a [u8], offsets: &'a [u64]) -> Self {
        OffsetStrings { bytes, offsets }
    }
}

impl<'a> OffsetStrings32<'a> {
    /// Creates the strings. Nothing is checked before a call.
    #[must_use]
    pub fn new(bytes: &'a [u8], offsets: &'a [u32]) -> Self {
        OffsetStrings32 { bytes, offsets }
    }
}

impl Whole for OffsetStrings<'_> {
    fn items(&self) -> Items<'_> {
        Items::offsets(self.bytes, self.offsets)
    }
}

impl Whole for OffsetStrings32<'_> {
    fn items(&self) -> Items<'_> {
        Items::offsets32(self.bytes, self.offsets)
    }
}

impl Rows for OffsetStrings<'_> {}
impl Rows for OffsetStrings32<'_> {}

/// Rows some of which are missing: see [`with_validity`].
#[derive(Debug)]
pub struct WithValidity<'a, B: ?Sized> {
    rows: &'a B,
    validity: &'a [u8],
    first_bit: usize,
}

/// Returns rows with a bitmap, as a column of Arrow with nulls. Row `i` is there if bit `first_bit + i` is
/// set. Bit `k` is bit `k % 8`, lowest first, of byte `k / 8`.
///
/// Missing rows are neither inserted nor counted. Their results are `false` or 0. Calls return an error if
/// the bitmap has too few bits, or shares bytes with the rows. An empty bitmap is no bitmap: then each row is there.
#[must_use]
pub fn with_validity<'a, B: Rows + ?Sized>(
    rows: &'a B,
    validity: &'a [u8],
    first_bit: usize,
) -> WithValidity<'a, B> {
    WithValidity { rows, validity, first_bit }
}

impl<B: Rows + ?Sized> Whole for WithValidity<'_, B> {
    fn items(&self) -> Items<'_> {
        self.rows.items().with_validity(self.validity, self.first_bit)
    }
}

/// Returns the number of bytes through the last ASCII white space, or 0 if there is none.
///
/// Words that begin after them may go on in the next chunk of a stream: pass on the bytes before, and put the
/// rest before that chunk.
#[must_use]
pub fn finished_words(text: &[u8]) -> usize {
    handle::finished_words(text)
}

/// Returns the number of bytes through the last LF, or 0 if there is none: see [`finished_words`].
#[must_use]
pub fn finished_lines(text: &[u8]) -> usize {
    handle::finished_lines(text)
}

/// Returns the number of bytes before the first that is not part of valid UTF-8, or the length if all are
/// UTF-8.
#[must_use]
pub fn valid_utf8(text: &[u8]) -> usize {
    handle::valid_utf8(text)
}
