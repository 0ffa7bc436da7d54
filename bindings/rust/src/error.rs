//! Errors.

use crate::handle;
use crate::sys;
use std::fmt;

/// The kind of an error.
#[derive(Clone, Copy, Debug, PartialEq, Eq, Hash)]
#[non_exhaustive]
pub enum ErrorKind {
    /// A call rejected an argument.
    InvalidArgument,
    /// A call rejected bytes that it read.
    InvalidData,
    /// An allocation failed.
    OutOfMemory,
    /// The system has no random bytes for a key.
    NoRandom,
}

impl ErrorKind {
    /// Returns the kind's name.
    #[must_use]
    pub const fn into_static(self) -> &'static str {
        match self {
            ErrorKind::InvalidArgument => "InvalidArgument",
            ErrorKind::InvalidData => "InvalidData",
            ErrorKind::OutOfMemory => "OutOfMemory",
            ErrorKind::NoRandom => "NoRandom",
        }
    }
}

impl fmt::Display for ErrorKind {
    fn fmt(&self, formatter: &mut fmt::Formatter<'_>) -> fmt::Result {
        formatter.write_str(self.into_static())
    }
}

/// An error: its [`kind`](Self::kind) and its [`name`](Self::name). It prints its [`message`](Self::message).
///
/// ```
/// use datasketches_rattle::bloom::BloomFilter;
/// use datasketches_rattle::error::ErrorKind;
///
/// let error = BloomFilter::deserialize(&[3, 1]).unwrap_err();
/// assert_eq!(error.kind(), ErrorKind::InvalidData);
/// assert_eq!(error.name(), "InsufficientData");
/// assert_eq!(error.to_string(), "insufficient data");
/// ```
#[derive(Clone, Copy, PartialEq, Eq)]
pub struct Error {
    kind: ErrorKind,
    code: i32,
}

impl Error {
    /// Returns the error of a call that rejects arguments.
    pub(crate) fn of_argument(code: i32) -> Self {
        let kind = match code {
            sys::DS_NO_MEMORY => ErrorKind::OutOfMemory,
            sys::DS_NO_RANDOM => ErrorKind::NoRandom,
            _ => ErrorKind::InvalidArgument,
        };
        Error { kind, code }
    }

    /// Returns the error of a call that rejects an image.
    pub(crate) fn of_data(code: i32) -> Self {
        match Error::of_argument(code) {
            Error { kind: ErrorKind::InvalidArgument, code } => Error { kind: ErrorKind::InvalidData, code },
            error => error,
        }
    }

    /// Returns the error of a memory request that failed.
    pub(crate) fn no_memory<E>(_: E) -> Self {
        Error::of_argument(sys::DS_NO_MEMORY)
    }

    /// Returns the kind.
    #[must_use]
    pub fn kind(&self) -> ErrorKind {
        self.kind
    }

    /// Returns the number of the error in `datasketches.h`, below 0.
    #[must_use]
    pub fn code(&self) -> i32 {
        self.code
    }

    /// Returns the error's name, such as `"Mismatch"`. [`code`](Self::code) and this name the cause.
    #[must_use]
    pub fn name(&self) -> &'static str {
        handle::name_of(self.code)
    }

    /// Returns the error's message, such as `"shapes or seeds differ"`.
    #[must_use]
    pub fn message(&self) -> &'static str {
        handle::message_of(self.code)
    }
}

impl fmt::Debug for Error {
    fn fmt(&self, formatter: &mut fmt::Formatter<'_>) -> fmt::Result {
        let mut fields = formatter.debug_struct("Error");
        fields.field("kind", &self.kind).field("name", &self.name()).field("code", &self.code).finish()
    }
}

impl fmt::Display for Error {
    fn fmt(&self, formatter: &mut fmt::Formatter<'_>) -> fmt::Result {
        formatter.write_str(self.message())
    }
}

impl std::error::Error for Error {}

/// Returns the value, and panics with the error's message if there is none.
#[inline]
pub(crate) fn must<T>(result: Result<T, Error>) -> T {
    match result {
        Ok(value) => value,
        Err(error) => panic_with(error),
    }
}

#[cold]
#[inline(never)]
fn panic_with(error: Error) -> ! {
    panic!("{}", error.message())
}
