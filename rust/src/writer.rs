//! Attributes written one after another into a buffer of the caller's.

use crate::{CanonError, HEADER_SIZE, NLA_HEADER_SIZE, RoomError};

/// Writes attributes, one after another, to the front of a buffer, without memory.
///
/// ```
/// use linkwire::Writer;
/// let mut buffer = [0; 64];
/// let mut writer = Writer::message(&mut buffer, &[0; 16])?;
/// writer.put(3, b"eth0\0")?;
/// writer.nest(18, |info| info.put(1, b"vlan\0"))?;
/// let message = writer.finish();
/// assert_eq!(message.len(), 44);
/// assert_eq!(linkwire::canonical(message)?, message);
/// # Ok::<(), linkwire::RoomError>(())
/// ```
#[derive(Debug)]
pub struct Writer<'a> {
    bytes: &'a mut [u8],
    at: usize,
}

impl<'a> Writer<'a> {
    /// A list of attributes that starts at the front of the buffer.
    ///
    /// [`put`](Writer::put) has an example.
    pub fn new(buffer: &'a mut [u8]) -> Writer<'a> {
        Writer { bytes: buffer, at: 0 }
    }

    /// A message: its header, and the attributes after it.
    ///
    /// [`Writer`] has an example.
    ///
    /// # Errors
    ///
    /// [`RoomError::NoRoom`] where the buffer has none for the header.
    pub fn message(buffer: &'a mut [u8], header: &[u8; HEADER_SIZE]) -> Result<Writer<'a>, RoomError> {
        let no_room = RoomError::NoRoom { wanted: HEADER_SIZE };
        buffer.get_mut(..HEADER_SIZE).ok_or(no_room)?.copy_from_slice(header);
        Ok(Writer { bytes: buffer, at: HEADER_SIZE })
    }

    /// Writes an attribute and its padding. The kind is the number, with the flag bits that it should have.
    ///
    /// # Errors
    ///
    /// [`CanonError::DoesNotFit`] where the payload has more than 65531 bytes, else [`RoomError::NoRoom`] where the
    /// buffer is too short, with the length that this buffer needs. Then nothing changes.
    ///
    /// ```
    /// use linkwire::{RoomError, Writer};
    /// let mut buffer = [0xff; 12];
    /// let mut writer = Writer::new(&mut buffer);
    /// writer.put(4, &1500u32.to_ne_bytes())?;
    /// assert_eq!(writer.put(33, &[1]), Err(RoomError::NoRoom { wanted: 16 }));
    /// assert_eq!(writer.finish(), [8, 0, 4, 0, 0xdc, 5, 0, 0]);
    /// assert_eq!(buffer[8..], [0xff; 4]);
    /// # Ok::<(), RoomError>(())
    /// ```
    pub fn put(&mut self, kind: u16, payload: &[u8]) -> Result<(), RoomError> {
        let length = length_field(payload.len())?;
        let end = NLA_HEADER_SIZE + payload.len();
        let wanted = self.at + end + padding(end);
        let frame = self.bytes.get_mut(self.at..wanted).ok_or(RoomError::NoRoom { wanted })?;
        write_header(frame, length, kind);
        frame[NLA_HEADER_SIZE..end].copy_from_slice(payload);
        frame[end..].fill(0);
        self.at = wanted;
        Ok(())
    }

    /// Writes an attribute whose payload is the list that `write` writes.
    ///
    /// [`Writer`] has an example.
    ///
    /// # Errors
    ///
    /// Those of `write`, with lengths of its own buffer, and those of [`put`](Writer::put). Then no attribute is added,
    /// and the bytes after the last one are unspecified.
    pub fn nest(
        &mut self,
        kind: u16,
        write: impl FnOnce(&mut Writer<'_>) -> Result<(), RoomError>,
    ) -> Result<(), RoomError> {
        let start = self.at + NLA_HEADER_SIZE;
        let no_room = RoomError::NoRoom { wanted: start };
        let mut inner = Writer::new(self.bytes.get_mut(start..).ok_or(no_room)?);
        write(&mut inner)?;
        // What was written is a multiple of four bytes, so that there is no padding.
        let end = start + inner.at;
        let length = length_field(inner.at)?;
        write_header(&mut self.bytes[self.at..], length, kind);
        self.at = end;
        Ok(())
    }

    /// What was written.
    ///
    /// [`Writer`] has an example.
    #[must_use]
    pub fn finish(self) -> &'a [u8] {
        &self.bytes[..self.at]
    }
}

/// The length field of an attribute with so many bytes of payload.
fn length_field(payload: usize) -> Result<u16, RoomError> {
    u16::try_from(NLA_HEADER_SIZE + payload).map_err(|_| RoomError::NoEncoding(CanonError::DoesNotFit))
}

/// How many bytes follow so many of an attribute, up to a multiple of four.
fn padding(len: usize) -> usize {
    len.wrapping_neg() % 4
}

fn write_header(frame: &mut [u8], length: u16, kind: u16) {
    frame[..2].copy_from_slice(&length.to_ne_bytes());
    frame[2..NLA_HEADER_SIZE].copy_from_slice(&kind.to_ne_bytes());
}
