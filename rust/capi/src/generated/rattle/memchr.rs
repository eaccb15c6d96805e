// Copied from scripts/erase/std_tests/src/rattle/memchr.rs: do not edit here.
//! The search for a byte.

/// The place of the first of these bytes.
#[inline]
pub fn memchr(needle: u8, bytes: &[u8]) -> Option<usize> {
    bytes.iter().position(|byte| *byte == needle)
}

/// The place of the first byte that is one of these two.
#[inline]
pub fn memchr2(one: u8, other: u8, bytes: &[u8]) -> Option<usize> {
    bytes.iter().position(|byte| *byte == one || *byte == other)
}

/// The place of the last of these bytes.
#[inline]
pub fn memrchr(needle: u8, bytes: &[u8]) -> Option<usize> {
    bytes.iter().rposition(|byte| *byte == needle)
}
