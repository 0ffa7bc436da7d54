//! The types of items.

use crate::handle::Counted;
use std::hash::Hash;

/// A type of items: `String`, `i64` or `u64`. This trait is implemented here alone.
pub trait FrequentItemValue: Counted + Clone + Eq + Hash + Send {}

impl FrequentItemValue for String {}
impl FrequentItemValue for i64 {}
impl FrequentItemValue for u64 {}
