// Copied from scripts/erase/std_tests/src/rattle/prelude.rs: do not edit here.
//! Names that each file of Rattle has without an import.

pub use super::boxed::Box;
pub use super::macros::{eprintln, format, print, println, vec};
pub use super::rt::{HostRuntime, Print};
pub use super::string::String;
pub use super::vec::Vec;
pub use crate::rattle_assert as assert;
pub use crate::rattle_assert_eq as assert_eq;
pub use crate::rattle_assert_ne as assert_ne;
pub use crate::rattle_panic as panic;
