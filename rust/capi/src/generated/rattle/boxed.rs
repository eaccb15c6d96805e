// Copied from scripts/erase/std_tests/src/rattle/boxed.rs: do not edit here.
//! A value in memory of its own.

use super::alloc::{AllocError, Global};
use std::convert::TryFrom;
use std::ops::{Deref, DerefMut};

/// A box of the standard library, which takes the allocator and returns an error.
pub struct Box<T>(std::boxed::Box<[T; 1]>);

impl<T> Box<T> {
    /// A box of this value.
    pub fn new(_alloc: Global, value: T) -> Result<Box<T>, AllocError> {
        let mut one = std::vec::Vec::new();
        one.try_reserve_exact(1)?;
        one.push(value);
        std::boxed::Box::try_from(one.into_boxed_slice()).map(Box).map_err(|_| AllocError)
    }
}

impl<T> Deref for Box<T> {
    type Target = T;

    fn deref(&self) -> &T {
        &self.0[0]
    }
}

impl<T> DerefMut for Box<T> {
    fn deref_mut(&mut self) -> &mut T {
        &mut self.0[0]
    }
}
