//! Attributes without memory: numbers, texts and lists inside of them, out of the bytes of a message.

use crate::nla_wire::{NlaBuffer, NlasIterator};
use crate::{DecodeError, HEADER_SIZE, LinkHeader};
use core::fmt;
use core::iter::FusedIterator;

/// The attributes of a message, front to back, without memory; after the first fault nothing more comes. Of bytes that
/// [`check`](crate::check) accepts none is at fault.
///
/// ```
/// use linkwire::{attributes, Cause};
/// let mut message = vec![0; 16];
/// message.extend([7, 0, 3, 0, b'l', b'o', 0, 0, 8, 0, 4, 0, 0xdc, 5, 0, 0]);
/// let found = attributes(&message).collect::<Result<Vec<_>, _>>()?;
/// assert_eq!(found.len(), 2);
/// assert_eq!(found[0].as_str(), Some("lo"));
/// assert_eq!((found[1].number(), found[1].as_u32()), (4, Some(1500)));
///
/// message.push(9);
/// let fault = attributes(&message).last().unwrap().unwrap_err();
/// assert_eq!(fault.cause, Cause::FrameShort { left: 1 });
/// # Ok::<(), linkwire::DecodeError>(())
/// ```
#[must_use]
pub fn attributes(message: &[u8]) -> Attributes<'_> {
    match LinkHeader::parse(message) {
        Ok(_) => Attributes::of_list(&message[HEADER_SIZE..]),
        Err(fault) => Attributes { fault: Some(fault), ..Attributes::of_list(&[]) },
    }
}

/// The attributes of a list, front to back.
#[derive(Clone, Debug)]
pub struct Attributes<'a> {
    /// That of a message shorter than its header.
    fault: Option<DecodeError>,
    frames: NlasIterator<'a>,
}

impl<'a> Attributes<'a> {
    /// The attributes of a list that starts at the front of these bytes.
    ///
    /// ```
    /// use linkwire::Attributes;
    /// let mut list = Attributes::of_list(&[5, 0, 16, 0, 6, 0, 0, 0]);
    /// assert_eq!(list.next().unwrap()?.as_u8(), Some(6));
    /// assert!(list.next().is_none());
    /// # Ok::<(), linkwire::DecodeError>(())
    /// ```
    #[must_use]
    pub fn of_list(list: &'a [u8]) -> Attributes<'a> {
        Attributes { fault: None, frames: NlasIterator::new(list) }
    }
}

impl<'a> Iterator for Attributes<'a> {
    type Item = Result<Attribute<'a>, DecodeError>;

    #[inline]
    fn next(&mut self) -> Option<Self::Item> {
        if let Some(fault) = self.fault.take() {
            return Some(Err(fault));
        }
        let frame = self.frames.next()?;
        Some(frame.map(Attribute::new))
    }
}

impl FusedIterator for Attributes<'_> {}

/// An attribute: a kind and a payload, which is not copied.
///
/// ```
/// use linkwire::Attributes;
/// let list = [8, 0, 4, 0, 0xdc, 5, 0, 0, 5, 0, 20, 0x40, b'a'];
/// let found: Vec<_> = Attributes::of_list(&list).collect::<Result<_, _>>()?;
/// assert_eq!((found[0].number(), found[0].as_u32(), found[0].as_u16()), (4, Some(1500), None));
/// assert_eq!((found[1].kind(), found[1].number()), (0x4014, 20));
/// assert_eq!((found[1].payload(), found[1].as_u8(), found[1].as_str()), (&[b'a'][..], Some(b'a'), Some("a")));
/// assert_eq!(found[1].as_u64(), None);
/// # Ok::<(), linkwire::DecodeError>(())
/// ```
#[derive(Clone, Copy, PartialEq, Eq, Hash)]
pub struct Attribute<'a> {
    frame: NlaBuffer<'a>,
}

impl Copy for NlaBuffer<'_> {}

impl fmt::Debug for Attribute<'_> {
    fn fmt(&self, f: &mut fmt::Formatter<'_>) -> fmt::Result {
        f.debug_struct("Attribute").field("kind", &self.kind()).field("payload", &self.payload()).finish()
    }
}

impl<'a> Attribute<'a> {
    /// The attribute that a frame is.
    #[inline]
    pub(crate) fn new(frame: NlaBuffer<'a>) -> Attribute<'a> {
        Attribute { frame }
    }

    /// The frame that it is.
    #[inline]
    pub(crate) fn frame(&self) -> &NlaBuffer<'a> {
        &self.frame
    }

    /// The number and the two flag bits above it.
    ///
    /// [`Attribute`] has an example.
    #[must_use]
    #[inline]
    pub fn kind(&self) -> u16 {
        self.frame.kind_with_flags()
    }

    /// The low 14 bits of the kind, as the kernel's constants have it.
    ///
    /// [`Attribute`] has an example.
    #[must_use]
    #[inline]
    pub fn number(&self) -> u16 {
        self.frame.kind()
    }

    /// The bytes between header and padding.
    ///
    /// [`Attribute`] has an example.
    #[must_use]
    #[inline]
    pub fn payload(&self) -> &'a [u8] {
        self.frame.value()
    }

    /// The payload as a number, if it has one byte.
    ///
    /// [`Attribute`] has an example.
    #[must_use]
    pub fn as_u8(&self) -> Option<u8> {
        Some(u8::from_ne_bytes(self.payload().try_into().ok()?))
    }

    /// The payload as a number in host order, if it has two bytes.
    ///
    /// [`Attribute`] has an example.
    #[must_use]
    pub fn as_u16(&self) -> Option<u16> {
        Some(u16::from_ne_bytes(self.payload().try_into().ok()?))
    }

    /// The payload as a number in host order, if it has four bytes.
    ///
    /// [`Attribute`] has an example.
    #[must_use]
    pub fn as_u32(&self) -> Option<u32> {
        Some(u32::from_ne_bytes(self.payload().try_into().ok()?))
    }

    /// The payload as a number in host order, if it has eight bytes.
    ///
    /// [`Attribute`] has an example.
    #[must_use]
    pub fn as_u64(&self) -> Option<u64> {
        Some(u64::from_ne_bytes(self.payload().try_into().ok()?))
    }

    /// The payload without the one NUL at its end, if there is one, where that is UTF-8.
    ///
    /// [`Attribute`] has an example.
    #[must_use]
    pub fn as_str(&self) -> Option<&'a str> {
        let text = self.payload();
        core::str::from_utf8(text.strip_suffix(&[0]).unwrap_or(text)).ok()
    }

    /// The attributes of the list that the payload is.
    ///
    /// ```
    /// // A header, and IFLA_LINKINFO with the kind of the link in it.
    /// let mut message = vec![0; 16];
    /// message.extend([12, 0, 18, 0, 8, 0, 1, 0, b'v', b'l', b'a', b'n']);
    /// for attribute in linkwire::attributes(&message) {
    ///     for inner in attribute?.nested() {
    ///         assert_eq!(inner?.as_str(), Some("vlan"));
    ///     }
    /// }
    /// # Ok::<(), linkwire::DecodeError>(())
    /// ```
    #[must_use]
    pub fn nested(&self) -> Attributes<'a> {
        Attributes::of_list(self.payload())
    }
}
