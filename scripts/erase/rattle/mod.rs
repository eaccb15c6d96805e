//! What stands for the parts of Rattle's library that Rust has otherwise, under the same names.

pub mod bitflags;
pub mod list;
pub mod net;
pub mod number;
pub mod str;
