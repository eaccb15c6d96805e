// Copied from scripts/erase/std_tests/src/rattle/hex.rs: do not edit here.
//! Bytes as hexadecimal digits.

use super::alloc::{AllocError, Global};
use super::string::String;
use super::vec::Vec;

const LOWER: &[u8; 16] = b"0123456789abcdef";
const UPPER: &[u8; 16] = b"0123456789ABCDEF";

/// The room for the digits is not just what they need, or digits spell no bytes, or there is no memory for these.
#[derive(Clone, Copy, Debug, PartialEq, Eq)]
pub struct FromHexError;

/// The two digits of a byte.
fn pair_of(byte: u8, digits: &[u8; 16]) -> [u8; 2] {
    [digits[(byte >> 4) as usize], digits[(byte & 15) as usize]]
}

/// Writes two lower-case digits for each byte.
pub fn encode_to_slice(bytes: &[u8], digits: &mut [u8]) -> Result<(), FromHexError> {
    if digits.len() != 2 * bytes.len() {
        return Err(FromHexError);
    }
    for (byte, pair) in bytes.iter().zip(digits.chunks_exact_mut(2)) {
        pair.copy_from_slice(&pair_of(*byte, LOWER));
    }
    Ok(())
}

fn text_of(alloc: Global, bytes: &[u8], digits: &[u8; 16]) -> Result<String, AllocError> {
    let mut text = String::with_capacity(alloc, 2 * bytes.len())?;
    for digit in bytes.iter().flat_map(|byte| pair_of(*byte, digits)) {
        text.push(digit as char)?;
    }
    Ok(text)
}

/// Two lower-case digits for each byte.
pub fn encode<T: AsRef<[u8]>>(alloc: Global, bytes: T) -> Result<String, AllocError> {
    text_of(alloc, bytes.as_ref(), LOWER)
}

/// Two upper-case digits for each byte.
pub fn encode_upper<T: AsRef<[u8]>>(alloc: Global, bytes: T) -> Result<String, AllocError> {
    text_of(alloc, bytes.as_ref(), UPPER)
}

/// The bytes that digits spell.
pub fn decode<T: AsRef<[u8]>>(alloc: Global, digits: T) -> Result<Vec<u8>, FromHexError> {
    let value = |digit: u8| (digit as char).to_digit(16).ok_or(FromHexError);
    let mut bytes = Vec::new(alloc);
    for pair in digits.as_ref().chunks(2) {
        let (high, low) = match *pair {
            [high, low] => (high, low),
            _ => return Err(FromHexError),
        };
        bytes.push((value(high)? << 4 | value(low)?) as u8).map_err(|_| FromHexError)?;
    }
    Ok(bytes)
}

#[cfg(test)]
mod tests {
    use super::*;

    #[test]
    fn digits_are_read_and_written() {
        let bytes = decode(Global, "00fFa9").expect("digits");
        assert_eq!(bytes.as_slice(), [0, 255, 0xa9]);
        assert_eq!(encode(Global, &bytes).expect("memory").as_str(), "00ffa9");
        assert_eq!(encode_upper(Global, bytes).expect("memory").as_str(), "00FFA9");
        assert_eq!((decode(Global, "0"), decode(Global, "0g")), (Err(FromHexError), Err(FromHexError)));
    }
}
