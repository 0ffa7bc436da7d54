//! Rows.

use std::fmt;

/// Which items a report has.
#[derive(Clone, Copy, Debug, PartialEq, Eq, Hash)]
pub enum ErrorType {
    /// Those whose upper bound exceeds the threshold and the error: no item whose weight exceeds both is
    /// missing.
    NoFalseNegatives,
    /// Those whose lower bound exceeds the threshold and the error: the weight of each exceeds both.
    NoFalsePositives,
}

/// The bounds and the estimate of an item's weight.
#[derive(Clone, Copy, Debug, Default, PartialEq, Eq)]
#[non_exhaustive]
#[repr(C)]
pub struct ItemBounds {
    /// The weight is at least this.
    pub lower_bound: u64,
    /// The upper bound if the item has a counter, and 0 otherwise.
    pub estimate: u64,
    /// The weight is at most this.
    pub upper_bound: u64,
}

/// A row of a report: an item, with an estimate and bounds of its weight.
#[derive(Clone, Debug, PartialEq, Eq)]
pub struct Row<T> {
    item: T,
    estimate: u64,
    upper_bound: u64,
    lower_bound: u64,
}

impl<T> Row<T> {
    pub(super) fn new(item: T, bounds: ItemBounds) -> Self {
        Row {
            item,
            estimate: bounds.estimate,
            upper_bound: bounds.upper_bound,
            lower_bound: bounds.lower_bound,
        }
    }

    /// Returns the item.
    #[must_use]
    pub fn item(&self) -> &T {
        &self.item
    }

    /// Returns the item, without a copy.
    #[must_use]
    pub fn into_item(self) -> T {
        self.item
    }

    /// Returns the estimate of the item's weight, which is the upper bound.
    #[must_use]
    pub fn estimate(&self) -> u64 {
        self.estimate
    }

    /// Returns the upper bound of the item's weight.
    #[must_use]
    pub fn upper_bound(&self) -> u64 {
        self.upper_bound
    }

    /// Returns the lower bound of the item's weight.
    #[must_use]
    pub fn lower_bound(&self) -> u64 {
        self.lower_bound
    }
}

impl<T: fmt::Display> fmt::Display for Row<T> {
    /// Prints the item, its estimate, and its lower and upper bound.
    fn fmt(&self, formatter: &mut fmt::Formatter<'_>) -> fmt::Result {
        write!(formatter, "{} {} {} {}", self.item, self.estimate, self.lower_bound, self.upper_bound)
    }
}
