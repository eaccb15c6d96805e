//! A text of a fixed room, as Rattle's `std::fmt` has it.

use std::fmt::{Display, Error, Write};
use std::str;

/// What stands at the end of a text that was cut.
const DOTS: &[u8] = b"...";

/// What a value is displayed as, in at most `N` bytes. One that has no room is cut, and ends in three dots.
pub struct InlineText<const N: usize> {
    bytes: [u8; N],
    len: usize,
}

impl<const N: usize> InlineText<N> {
    pub fn of<D: Display>(value: D) -> InlineText<N> {
        let mut text = InlineText { bytes: [0; N], len: 0 };
        if write!(text, "{value}").is_err() {
            text.end_in_dots();
        }
        text
    }

    pub fn as_str(&self) -> &str {
        str::from_utf8(&self.bytes[..self.len]).unwrap_or("")
    }

    fn end_in_dots(&mut self) {
        while self.len + DOTS.len() > N || str::from_utf8(&self.bytes[..self.len]).is_err() {
            self.len -= 1;
        }
        self.bytes[self.len..self.len + DOTS.len()].copy_from_slice(DOTS);
        self.len += DOTS.len();
    }
}

impl<const N: usize> Write for InlineText<N> {
    fn write_str(&mut self, part: &str) -> Result<(), Error> {
        let fits = part.len().min(N - self.len);
        self.bytes[self.len..self.len + fits].copy_from_slice(&part.as_bytes()[..fits]);
        self.len += fits;
        if fits < part.len() { Err(Error) } else { Ok(()) }
    }
}
