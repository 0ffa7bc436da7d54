//! The types of weights.

use crate::error::Error;
use std::fmt::Debug;
use std::ops::Add;

/// A type of weights: `i8` to `i64` and `u8` to `u64`. This trait is implemented here alone.
///
/// The library has cells of 64 bits. A sketch of a shorter type takes as much memory, and rejects a total
/// that exceeds that type.
pub trait CountMinValue: sealed::Value {}

/// A type of weights without a sign, which can be halved and decay. This trait is implemented here alone.
pub trait UnsignedCountMinValue: CountMinValue + sealed::Unsigned {}

pub(crate) mod sealed {
    use super::{Add, Debug, Error};
    use crate::handle::Cell;

    pub trait Value: Copy + Debug + Ord + Add<Output = Self> + 'static {
        type Cell: Cell;
        const ONE: Self;
        /// The maximum, as a magnitude.
        const MAX: u64;
        /// Whether cells have values that this type has not.
        const IS_NARROW: bool;
        fn to_cell(self) -> Self::Cell;
        /// Returns the value of a cell, or the maximum if the cell exceeds it.
        fn from_cell(cell: Self::Cell) -> Self;
        /// Returns the weights themselves if they are cells.
        fn as_cells(weights: &[Self]) -> Option<&[Self::Cell]>;
        /// Returns the values of cells, without a copy if the cells are values.
        fn from_cells(cells: Vec<Self::Cell>) -> Result<Vec<Self>, Error>;
    }

    pub trait Unsigned: Value<Cell = u64> {}
}

/// Values that are not cells.
macro_rules! narrow {
    ($cell:ident) => {
        const IS_NARROW: bool = true;

        fn as_cells(_: &[Self]) -> Option<&[$cell]> {
            None
        }

        fn from_cells(cells: Vec<$cell>) -> Result<Vec<Self>, Error> {
            let mut values = Vec::new();
            values.try_reserve_exact(cells.len()).map_err(Error::no_memory)?;
            values.extend(cells.into_iter().map(Self::from_cell));
            Ok(values)
        }
    };
}

/// Values that are cells.
macro_rules! wide {
    ($cell:ident) => {
        const IS_NARROW: bool = false;

        fn as_cells(weights: &[Self]) -> Option<&[$cell]> {
            Some(weights)
        }

        fn from_cells(cells: Vec<$cell>) -> Result<Vec<Self>, Error> {
            Ok(cells)
        }
    };
}

macro_rules! values {
    ($cell:ident: $($value:ident $width:ident)*) => {$(
        impl sealed::Value for $value {
            type Cell = $cell;
            const ONE: Self = 1;
            const MAX: u64 = $value::MAX as u64;
            $width!($cell);

            #[inline]
            fn to_cell(self) -> $cell {
                self.into()
            }

            #[inline]
            fn from_cell(cell: $cell) -> Self {
                cell.try_into().unwrap_or($value::MAX)
            }
        }

        impl CountMinValue for $value {}
    )*};
}

values!(i64: i8 narrow i16 narrow i32 narrow i64 wide);
values!(u64: u8 narrow u16 narrow u32 narrow u64 wide);

macro_rules! unsigned {
    ($($value:ident)*) => {$(
        impl sealed::Unsigned for $value {}
        impl UnsignedCountMinValue for $value {}
    )*};
}

unsigned!(u8 u16 u32 u64);
