// Copied from scripts/erase/rattle/str.rs: do not edit here.
//! Texts as bytes.

pub use core::str::from_utf8;

/// The bytes as a text. They have to be UTF-8, which is found out here.
#[inline]
pub fn from_utf8_unchecked(bytes: &[u8]) -> &str {
    match from_utf8(bytes) {
        Ok(text) => text,
        Err(_) => panic!("bytes that are not UTF-8"),
    }
}
