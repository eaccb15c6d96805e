// Copied from scripts/erase/std_tests/src/rattle/string.rs: do not edit here.
//! A text whose calls that take memory can fail.

use super::alloc::{AllocError, Global};
use std::fmt;
use std::ops::Deref;

/// A text of the standard library, whose calls that take memory take the allocator or return an error.
#[derive(Clone, Debug, Default, PartialEq, Eq, PartialOrd, Ord, Hash)]
pub struct String(std::string::String);

impl String {
    /// The empty text. It takes no memory.
    pub fn new(_alloc: Global) -> String {
        String(std::string::String::new())
    }

    /// The empty text, and room for so many bytes.
    pub fn with_capacity(_alloc: Global, capacity: usize) -> Result<String, AllocError> {
        let mut string = std::string::String::new();
        string.try_reserve_exact(capacity)?;
        Ok(String(string))
    }

    /// A copy of a text.
    #[inline]
    pub fn from_str(_alloc: Global, text: &str) -> Result<String, AllocError> {
        let mut string = std::string::String::new();
        string.try_reserve_exact(text.len())?;
        string.push_str(text);
        Ok(String(string))
    }

    /// The text that the bytes are, if they are UTF-8.
    pub fn from_utf8(bytes: crate::rattle::vec::Vec<u8>) -> Result<String, core::str::Utf8Error> {
        std::string::String::from_utf8(bytes.into_std()).map(String).map_err(|error| error.utf8_error())
    }

    /// Adds a char at the end.
    pub fn push(&mut self, c: char) -> Result<(), AllocError> {
        self.0.try_reserve(c.len_utf8())?;
        self.0.push(c);
        Ok(())
    }

    /// Adds a text at the end.
    pub fn push_str(&mut self, text: &str) -> Result<(), AllocError> {
        self.0.try_reserve(text.len())?;
        self.0.push_str(text);
        Ok(())
    }

    /// The text.
    #[inline]
    pub fn as_str(&self) -> &str {
        self.0.as_str()
    }
}

impl Deref for String {
    type Target = str;

    fn deref(&self) -> &str {
        &self.0
    }
}

impl fmt::Display for String {
    fn fmt(&self, f: &mut fmt::Formatter<'_>) -> fmt::Result {
        f.pad(&self.0)
    }
}

impl fmt::Write for String {
    fn write_str(&mut self, text: &str) -> fmt::Result {
        self.push_str(text).map_err(|_| fmt::Error)
    }
}

impl From<std::string::String> for String {
    fn from(string: std::string::String) -> String {
        String(string)
    }
}

impl From<String> for std::string::String {
    fn from(string: String) -> std::string::String {
        string.0
    }
}
