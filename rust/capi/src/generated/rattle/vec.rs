// Copied from scripts/erase/std_tests/src/rattle/vec.rs: do not edit here.
//! A vector whose calls that take memory can fail.

use super::alloc::{AllocError, AllocFailed, Global};
use std::borrow::Borrow;
use std::fmt;
use std::ops::{Deref, DerefMut};

/// A vector of the standard library, whose calls that take memory take the allocator or return an error.
#[derive(Clone, Default, PartialEq, Eq, PartialOrd, Ord, Hash)]
pub struct Vec<T>(std::vec::Vec<T>);

impl<T> Vec<T> {
    /// No values. It takes no memory.
    pub fn new(_alloc: Global) -> Vec<T> {
        Vec(std::vec::Vec::new())
    }

    /// No values, and room for so many.
    #[inline]
    pub fn with_capacity(_alloc: Global, capacity: usize) -> Result<Vec<T>, AllocError> {
        let mut vec = std::vec::Vec::new();
        vec.try_reserve_exact(capacity)?;
        Ok(Vec(vec))
    }

    /// These values.
    pub fn from_array<const N: usize>(alloc: Global, values: [T; N]) -> Result<Vec<T>, AllocError> {
        let mut vec = Vec::with_capacity(alloc, N)?;
        vec.0.extend(values);
        Ok(vec)
    }

    /// Moves all values of another vector to the end.
    pub fn append(&mut self, other: &mut Vec<T>) -> Result<(), AllocError> {
        self.0.try_reserve(other.0.len())?;
        self.0.append(&mut other.0);
        Ok(())
    }

    /// Makes room for so many values more.
    #[inline]
    pub fn reserve(&mut self, more: usize) -> Result<(), AllocError> {
        Ok(self.0.try_reserve(more)?)
    }

    /// Adds a value at the end.
    #[inline]
    pub fn push(&mut self, value: T) -> Result<(), AllocFailed<T>> {
        if self.0.len() == self.0.capacity() && self.0.try_reserve(1).is_err() {
            return Err(AllocFailed { value });
        }
        self.0.push(value);
        Ok(())
    }

    /// Adds a value at the end, where there is room.
    #[inline]
    pub fn push_reserved(&mut self, value: T) {
        self.0.push(value);
    }

    /// The values.
    #[inline]
    pub fn as_slice(&self) -> &[T] {
        self.0.as_slice()
    }

    /// The values, to be changed in place.
    #[inline]
    pub fn as_mut_slice(&mut self) -> &mut [T] {
        self.0.as_mut_slice()
    }

    /// For how many values there is room.
    #[inline]
    pub fn capacity(&self) -> usize {
        self.0.capacity()
    }

    /// Takes the last value.
    #[inline]
    pub fn pop(&mut self) -> Option<T> {
        self.0.pop()
    }

    /// Keeps so many values in front.
    #[inline]
    pub fn truncate(&mut self, len: usize) {
        self.0.truncate(len);
    }

    /// Takes all values out.
    #[inline]
    pub fn clear(&mut self) {
        self.0.clear();
    }

    /// The vector of the standard library.
    #[inline]
    pub fn into_std(self) -> std::vec::Vec<T> {
        self.0
    }
}

impl<T: Copy> Vec<T> {
    /// A copy of these values.
    #[inline]
    pub fn from_slice(_alloc: Global, values: &[T]) -> Result<Vec<T>, AllocError> {
        let mut vec = std::vec::Vec::new();
        vec.try_reserve_exact(values.len())?;
        vec.extend_from_slice(values);
        Ok(Vec(vec))
    }

    /// Adds a copy of these values at the end.
    #[inline]
    pub fn extend_from_slice(&mut self, values: &[T]) -> Result<(), AllocError> {
        self.0.try_reserve(values.len())?;
        self.0.extend_from_slice(values);
        Ok(())
    }

    /// Cuts the values, or adds copies of one, up to this length.
    #[inline]
    pub fn resize(&mut self, len: usize, value: T) -> Result<(), AllocError> {
        if len > self.0.len() {
            self.0.try_reserve(len - self.0.len())?;
        }
        self.0.resize(len, value);
        Ok(())
    }
}

impl<T: fmt::Debug> fmt::Debug for Vec<T> {
    fn fmt(&self, f: &mut fmt::Formatter<'_>) -> fmt::Result {
        self.0.fmt(f)
    }
}

impl<T> Deref for Vec<T> {
    type Target = [T];

    #[inline]
    fn deref(&self) -> &[T] {
        &self.0
    }
}

impl<T> DerefMut for Vec<T> {
    #[inline]
    fn deref_mut(&mut self) -> &mut [T] {
        &mut self.0
    }
}

impl<T> AsRef<[T]> for Vec<T> {
    fn as_ref(&self) -> &[T] {
        &self.0
    }
}

impl<T> Borrow<[T]> for Vec<T> {
    fn borrow(&self) -> &[T] {
        &self.0
    }
}

impl<T> From<std::vec::Vec<T>> for Vec<T> {
    fn from(vec: std::vec::Vec<T>) -> Vec<T> {
        Vec(vec)
    }
}

impl<T> From<Vec<T>> for std::vec::Vec<T> {
    fn from(vec: Vec<T>) -> std::vec::Vec<T> {
        vec.0
    }
}

impl<T> IntoIterator for Vec<T> {
    type Item = T;
    type IntoIter = std::vec::IntoIter<T>;

    fn into_iter(self) -> std::vec::IntoIter<T> {
        self.0.into_iter()
    }
}

impl<'a, T> IntoIterator for &'a Vec<T> {
    type Item = &'a T;
    type IntoIter = std::slice::Iter<'a, T>;

    fn into_iter(self) -> std::slice::Iter<'a, T> {
        self.0.iter()
    }
}

impl std::io::Write for Vec<u8> {
    fn write(&mut self, bytes: &[u8]) -> std::io::Result<usize> {
        self.extend_from_slice(bytes)?;
        Ok(bytes.len())
    }

    fn flush(&mut self) -> std::io::Result<()> {
        Ok(())
    }
}

/// `x.to_vec(alloc)` of a slice: its own call of that name takes no allocator.
pub trait ToVecBy<T> {
    fn to_vec_by(&self, alloc: Global) -> Result<Vec<T>, AllocError>;
}

impl<T: Copy> ToVecBy<T> for [T] {
    fn to_vec_by(&self, alloc: Global) -> Result<Vec<T>, AllocError> {
        Vec::from_slice(alloc, self)
    }
}
