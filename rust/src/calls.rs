//! Calls on the bytes of one message, without values.

use crate::{DecodeError, LinkMessage, RoomError, canonical_lenient_within, canonical_within};

/// A canonical encoding has at most so many bytes for each byte of its message.
pub const GROWTH: usize = 79;

/// Whether the bytes are a message, without memory.
///
/// # Errors
///
/// The first fault, as [`LinkMessage::parse`] returns it.
///
/// ```
/// use linkwire::{check, Cause};
/// assert_eq!(check(&[0; 16]), Ok(()));
/// assert_eq!(check(&[0; 15]).unwrap_err().cause, Cause::TooShort { got: 15, need: 16 });
/// ```
pub fn check(message: &[u8]) -> Result<(), DecodeError> {
    LinkMessage::check(message)
}

/// The first fault, and the offset from the start of the message of the innermost attribute at fault, or of the bytes
/// where one should start; `None` where the bytes are a message. Takes no memory. [`LinkMessage::fault_path`] has the
/// numbers of the attributes that lead there too, and [`LinkMessage::fault_at`] the offset alone.
///
/// ```
/// use linkwire::{fault_at, Cause};
/// assert_eq!(fault_at(&[0; 16]), None);
/// let (fault, at) = fault_at(&[0; 19]).unwrap();
/// assert_eq!((fault.cause, at), (Cause::FrameShort { left: 3 }, 16));
/// ```
#[must_use]
pub fn fault_at(message: &[u8]) -> Option<(DecodeError, usize)> {
    let fault = LinkMessage::check(message).err()?;
    LinkMessage::fault_at(message).map(|at| (fault, at))
}

/// Writes the message's canonical encoding to the front of `out`, without memory, and returns its length; the rest of
/// `out` is kept.
///
/// # Errors
///
/// [`RoomError::NoEncoding`] where [`canonical`](crate::canonical) refuses, [`RoomError::NoRoom`] exactly where the
/// encoding is longer than `out`. After a refusal `out` is unchanged.
///
/// ```
/// use linkwire::{canonical_into, RoomError};
/// let message = [0, 9, 1, 0, 7, 0, 0, 0, 0, 0, 0, 0, 0, 0, 0, 0, 6, 0, 3, 0, b'l', b'o'];
/// assert_eq!(canonical_into(&message, &mut [0; 64]), Ok(24));
/// assert_eq!(canonical_into(&message, &mut [0; 23]), Err(RoomError::NoRoom { wanted: 24 }));
/// ```
pub fn canonical_into(message: &[u8], out: &mut [u8]) -> Result<usize, RoomError> {
    canonical_within(message, out)
}

/// The same of what the bytes mean leniently, where each attribute that [`LinkMessage::parse`] refuses is kept whole.
///
/// # Errors
///
/// [`RoomError::NoEncoding`] where [`canonical_lenient`](crate::canonical_lenient) refuses, [`RoomError::NoRoom`]
/// exactly where the encoding is longer than `out`. After a refusal `out` is unchanged.
///
/// ```
/// use linkwire::{canonical_lenient_into, canonical_into};
/// // an alias that is not UTF-8
/// let message = [0, 9, 1, 0, 7, 0, 0, 0, 0, 0, 0, 0, 0, 0, 0, 0, 5, 0, 20, 0, 0xe9];
/// assert!(canonical_into(&message, &mut [0; 64]).is_err());
/// assert_eq!(canonical_lenient_into(&message, &mut [0; 64]), Ok(24));
/// ```
pub fn canonical_lenient_into(message: &[u8], out: &mut [u8]) -> Result<usize, RoomError> {
    canonical_lenient_within(message, out)
}
