// Copied from scripts/erase/std_tests/src/rattle/macros.rs: do not edit here.
//! Macros that take an allocator or the runtime.

use super::alloc::{AllocError, Global};
use super::string::String;
use super::vec::Vec;
use std::fmt;

/// A text that a format makes.
pub fn formatted(alloc: Global, arguments: fmt::Arguments<'_>) -> Result<String, AllocError> {
    let mut text = String::new(alloc);
    fmt::Write::write_fmt(&mut text, arguments).map_err(|_| AllocError)?;
    Ok(text)
}

/// So many copies of a value.
pub fn repeated<T: Copy>(alloc: Global, value: T, count: usize) -> Result<Vec<T>, AllocError> {
    let mut vec = Vec::new(alloc);
    vec.resize(count, value)?;
    Ok(vec)
}

/// These values.
pub fn listed<T, const N: usize>(alloc: Global, values: [T; N]) -> Result<Vec<T>, AllocError> {
    let mut vec = Vec::with_capacity(alloc, N)?;
    for value in values {
        vec.push_reserved(value);
    }
    Ok(vec)
}

#[doc(hidden)]
#[macro_export]
macro_rules! rattle_format {
    (in $alloc:expr; $($arguments:tt)*) => {
        $crate::rattle::macros::formatted($alloc, format_args!($($arguments)*))
    };
}

#[doc(hidden)]
#[macro_export]
macro_rules! rattle_vec {
    (in $alloc:expr; $value:expr; $count:expr) => {
        $crate::rattle::macros::repeated($alloc, $value, $count)
    };
    (in $alloc:expr; $($value:expr),* $(,)?) => {
        $crate::rattle::macros::listed($alloc, [$($value),*])
    };
}

#[doc(hidden)]
#[macro_export]
macro_rules! rattle_print {
    ($rt:expr; $($arguments:tt)*) => {
        $crate::rattle::rt::Print::print(&$rt, format_args!($($arguments)*))
    };
}

#[doc(hidden)]
#[macro_export]
macro_rules! rattle_println {
    ($rt:expr; $($arguments:tt)*) => {
        $crate::rattle::rt::Print::print(&$rt, format_args!("{}\n", format_args!($($arguments)*)))
    };
}

#[doc(hidden)]
#[macro_export]
macro_rules! rattle_eprintln {
    ($rt:expr; $($arguments:tt)*) => {
        $crate::rattle::rt::Print::eprint(&$rt, format_args!("{}\n", format_args!($($arguments)*)))
    };
}

pub use crate::rattle_eprintln as eprintln;
pub use crate::rattle_format as format;
pub use crate::rattle_print as print;
pub use crate::rattle_println as println;
pub use crate::rattle_vec as vec;
