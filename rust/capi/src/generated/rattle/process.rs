// Copied from scripts/erase/std_tests/src/rattle/process.rs: do not edit here.
//! Ending the process.

/// What may end the process.
pub trait Abort {}

impl Abort for super::rt::HostRuntime {}
