// Copied from scripts/erase/std_tests/src/rattle/mod.rs: do not edit here.
//! What stands for the parts of Rattle's library that differ from Rust's, under the same names.

pub mod alloc;
pub mod bitflags;
pub mod boxed;
pub mod collections;
pub mod env;
pub mod fmt;
pub mod fs;
pub mod hex;
pub mod itoa;
pub mod json;
pub mod macros;
pub mod memchr;
pub mod number;
pub mod prelude;
pub mod process;
pub mod rt;
pub mod simd;
pub mod str;
pub mod string;
pub mod test;
pub mod vec;
