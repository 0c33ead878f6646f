//! The allocator, and the errors where it has no memory.

use std::collections::TryReserveError;
use std::error::Error;
use std::fmt;

/// The allocator.
#[derive(Clone, Copy, Debug)]
pub struct Global;

/// There was no memory.
#[derive(Clone, Copy, Debug, PartialEq, Eq)]
pub struct AllocError;

/// There was no memory to keep this value.
#[derive(Clone, Copy, Debug, PartialEq, Eq)]
pub struct AllocFailed<T> {
    /// The value, given back.
    pub value: T,
}

impl fmt::Display for AllocError {
    fn fmt(&self, f: &mut fmt::Formatter) -> fmt::Result {
        write!(f, "no memory")
    }
}

impl Error for AllocError {}

impl From<TryReserveError> for AllocError {
    fn from(_: TryReserveError) -> AllocError {
        AllocError
    }
}

impl<T> From<AllocFailed<T>> for AllocError {
    fn from(_: AllocFailed<T>) -> AllocError {
        AllocError
    }
}
