// Copied from scripts/erase/rattle/net.rs: do not edit here.
//! Addresses of the internet, which Rust's core has from 1.77 on.

#[cfg(not(feature = "std"))]
pub use core::net::{Ipv4Addr, Ipv6Addr};
#[cfg(feature = "std")]
pub use std::net::{Ipv4Addr, Ipv6Addr};
