//! Sketches that many threads read at once.

use crate::error::Error;
use crate::handle::Handle;
use std::fmt;
use std::ops::Deref;
use std::sync::{Mutex, MutexGuard, PoisonError};

/// A sketch of some kind. This trait is implemented here alone.
pub trait Sketch: sealed::Owner + Send {}

pub(crate) mod sealed {
    use super::Handle;

    pub trait Owner: Sized {
        fn from_handle(handle: Handle) -> Self;
        fn handle(&self) -> &Handle;
        fn handle_mut(&mut self) -> &mut Handle;
    }
}

/// A sketch that does not change, and that many threads read at once.
///
/// Each thread reads it by a [`Reader`] of its own, without a lock and without a copy of the sketch.
///
/// ```
/// use datasketches_rattle::bloom::BloomFilterBuilder;
/// use datasketches_rattle::Shared;
/// use std::thread;
///
/// let mut filter = BloomFilterBuilder::with_accuracy(1000, 0.01).build().unwrap();
/// filter.insert_all(&[1u64, 2, 3]).unwrap();
/// let shared = Shared::new(filter).unwrap();
/// thread::scope(|scope| {
///     for item in 1..=3u64 {
///         let shared = &shared;
///         scope.spawn(move || {
///             let filter = shared.reader().unwrap();
///             assert!(filter.contains(&item));
///         });
///     }
/// });
/// let mut filter = shared.thaw().unwrap();
/// filter.insert(4u64);
/// ```
///
/// A reader changes nothing:
///
/// ```compile_fail,E0596
/// # let filter = datasketches_rattle::bloom::BloomFilterBuilder::with_size(64, 1).build().unwrap();
/// let shared = datasketches_rattle::Shared::new(filter).unwrap();
/// shared.reader().unwrap().insert(1);
/// ```
///
/// A reader is for one thread at a time:
///
/// ```compile_fail,E0277
/// # let filter = datasketches_rattle::bloom::BloomFilterBuilder::with_size(64, 1).build().unwrap();
/// let shared = datasketches_rattle::Shared::new(filter).unwrap();
/// let reader = shared.reader().unwrap();
/// std::thread::scope(|scope| {
///     scope.spawn(|| reader.contains(&1));
///     reader.contains(&2);
/// });
/// ```
pub struct Shared<S>(Mutex<S>);

/// A sketch that another thread may read at the same time: see [`Shared`]. It has the calls that change
/// nothing.
pub struct Reader<S>(S);

impl<S: Sketch> Shared<S> {
    /// Shares a sketch, without a copy. Returns the sketch with the error if memory runs out.
    pub fn new(mut sketch: S) -> Result<Self, (S, Error)> {
        match sketch.handle_mut().freeze() {
            Ok(()) => Ok(Shared(Mutex::new(sketch))),
            Err(error) => Err((sketch, error)),
        }
    }

    fn sketch(&self) -> MutexGuard<'_, S> {
        // No call panics while it has the lock, so the sketch is whole.
        self.0.lock().unwrap_or_else(PoisonError::into_inner)
    }

    /// Returns a reader, for one thread. It takes a lock for a moment. Returns an error if memory runs out.
    pub fn reader(&self) -> Result<Reader<S>, Error> {
        Ok(Reader(S::from_handle(self.sketch().handle().share()?)))
    }

    /// Returns the sketch, which can change again, if no reader is left. Returns the shared sketch otherwise.
    pub fn thaw(self) -> Result<S, Self> {
        let mut sketch = self.0.into_inner().unwrap_or_else(PoisonError::into_inner);
        match sketch.handle_mut().thaw() {
            Ok(true) => Ok(sketch),
            _ => Err(Shared(Mutex::new(sketch))),
        }
    }
}

impl<S> Deref for Reader<S> {
    type Target = S;

    fn deref(&self) -> &S {
        &self.0
    }
}

impl<S: Sketch + fmt::Debug> fmt::Debug for Shared<S> {
    fn fmt(&self, formatter: &mut fmt::Formatter<'_>) -> fmt::Result {
        formatter.debug_tuple("Shared").field(&*self.sketch()).finish()
    }
}

impl<S: fmt::Debug> fmt::Debug for Reader<S> {
    fn fmt(&self, formatter: &mut fmt::Formatter<'_>) -> fmt::Result {
        formatter.debug_tuple("Reader").field(&self.0).finish()
    }
}
