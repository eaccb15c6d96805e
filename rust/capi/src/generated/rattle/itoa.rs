// Copied from scripts/erase/std_tests/src/rattle/itoa.rs: do not edit here.
//! Numbers as decimal digits, without memory.

use std::fmt::{self, Write};

/// The most bytes of a number of 16 bytes, with its sign.
const MOST: usize = 40;

/// Room for the digits of a number.
pub struct Buffer {
    bytes: [u8; MOST],
    len: usize,
}

impl Buffer {
    pub fn new() -> Buffer {
        Buffer { bytes: [0; MOST], len: 0 }
    }

    /// The digits of a number, after a sign where it is below zero.
    pub fn format<I: fmt::Display>(&mut self, value: I) -> &str {
        self.len = 0;
        write!(self, "{value}").expect("a number has at most 40 digits");
        std::str::from_utf8(&self.bytes[..self.len]).expect("digits")
    }
}

impl Write for Buffer {
    fn write_str(&mut self, text: &str) -> fmt::Result {
        let end = self.len + text.len();
        let room = self.bytes.get_mut(self.len..end).ok_or(fmt::Error)?;
        room.copy_from_slice(text.as_bytes());
        self.len = end;
        Ok(())
    }
}
