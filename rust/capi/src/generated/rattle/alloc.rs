// Copied from scripts/erase/std_tests/src/rattle/alloc.rs: do not edit here.
//! The allocator, which takes no bytes, and the errors of an allocation.

use std::error::Error;
use std::fmt;

/// The allocator of the process.
#[derive(Clone, Copy, Debug, Default, PartialEq, Eq)]
pub struct Global;

/// No memory was left.
#[derive(Clone, Copy, Debug, PartialEq, Eq)]
pub struct AllocError;

impl fmt::Display for AllocError {
    fn fmt(&self, f: &mut fmt::Formatter<'_>) -> fmt::Result {
        f.write_str("out of memory")
    }
}

impl Error for AllocError {}

impl From<std::collections::TryReserveError> for AllocError {
    fn from(_error: std::collections::TryReserveError) -> AllocError {
        AllocError
    }
}

/// No memory was left for a value, which is given back.
#[derive(Clone, Copy, Debug, PartialEq, Eq)]
pub struct AllocFailed<T> {
    pub value: T,
}

impl<T> fmt::Display for AllocFailed<T> {
    fn fmt(&self, f: &mut fmt::Formatter<'_>) -> fmt::Result {
        f.write_str("out of memory")
    }
}

impl<T: fmt::Debug> Error for AllocFailed<T> {}

impl<T> From<AllocFailed<T>> for AllocError {
    fn from(_error: AllocFailed<T>) -> AllocError {
        AllocError
    }
}

impl From<AllocError> for std::io::Error {
    fn from(_error: AllocError) -> std::io::Error {
        std::io::ErrorKind::OutOfMemory.into()
    }
}
