// Copied from scripts/erase/std_tests/src/rattle/json.rs: do not edit here.
//! The writer of JSON, as far as the crates call it.

use super::alloc::AllocError;
use super::vec::Vec;

/// Places commas, and leaves the nesting to its caller.
pub struct Writer {
    out: Vec<u8>,
    after_value: bool,
}

impl Writer {
    pub fn new(out: Vec<u8>) -> Writer {
        Writer { out, after_value: false }
    }

    /// The text.
    pub fn into_inner(self) -> Vec<u8> {
        self.out
    }

    /// Adds a string.
    pub fn string(&mut self, text: &str) -> Result<(), AllocError> {
        if self.after_value {
            self.out.push(b',')?;
        }
        self.after_value = true;
        self.out.extend_from_slice(b"\"")?;
        for byte in text.bytes() {
            match byte {
                b'"' | b'\\' => self.out.extend_from_slice(&[b'\\', byte])?,
                8 => self.out.extend_from_slice(b"\\b")?,
                9 => self.out.extend_from_slice(b"\\t")?,
                10 => self.out.extend_from_slice(b"\\n")?,
                12 => self.out.extend_from_slice(b"\\f")?,
                13 => self.out.extend_from_slice(b"\\r")?,
                0..=31 => self.out.extend_from_slice(&[b'\\', b'u', b'0', b'0', digit(byte >> 4), digit(byte & 15)])?,
                _ => self.out.extend_from_slice(&[byte])?,
            }
        }
        self.out.extend_from_slice(b"\"")
    }
}

/// The hexadecimal digit of a number below 16.
fn digit(value: u8) -> u8 {
    b"0123456789abcdef"[usize::from(value)]
}

#[cfg(test)]
mod tests {
    use super::super::alloc::Global;
    use super::*;

    #[test]
    fn strings_are_escaped() {
        let mut writer = Writer::new(Vec::new(Global));
        writer.string("a\"\\\n\u{1f}\u{e9}").expect("memory");
        writer.string("").expect("memory");
        assert_eq!(writer.into_inner().as_slice(), "\"a\\\"\\\\\\n\\u001f\u{e9}\",\"\"".as_bytes());
    }
}
