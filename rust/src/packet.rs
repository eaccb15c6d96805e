//! Frames and traits with the names and signatures of netlink-packet-core.

use crate::link_msg::{AddressFamily, DecodeError, DefaultNla, LinkAttribute, LinkHeader, LinkMessage};
use crate::link_msg::{LinkEvent, LinkPhysId, LinkVfInfo, LinkVfPort, WirelessEvent};
use crate::link_vf::entry::Entry;
use crate::nla_wire::{
    self, Cause, MOST_VALUE_LEN, NLA_F_NESTED, NLA_F_NET_BYTEORDER, NLA_HEADER_SIZE, NLA_TYPE_MASK, NlaRead,
};
use crate::rattle::number::MOST_LEN;
use alloc::vec::Vec;

/// A value that can be written as bytes.
pub trait Emitable {
    /// How many bytes [`emit`](Emitable::emit) writes.
    ///
    /// # Panics
    ///
    /// Where the value does not fit: an attribute holds at most 65531 bytes.
    ///
    /// ```
    /// use linkwire::{Emitable, LinkAttribute};
    /// let attribute = LinkAttribute::Mtu(1500);
    /// let mut bytes = vec![0; attribute.buffer_len()];
    /// attribute.emit(&mut bytes);
    /// assert_eq!(bytes, [8, 0, 4, 0, 0xdc, 5, 0, 0]);
    /// ```
    fn buffer_len(&self) -> usize;

    /// Writes the value to the front of the buffer, and keeps the rest. [`LinkMessage::fits`] tells before whether a
    /// message fits, and [`LinkMessage::to_vec`] returns an error where it does not.
    ///
    /// [`buffer_len`](Emitable::buffer_len) has an example.
    ///
    /// # Panics
    ///
    /// Where the value does not fit, or the buffer has fewer bytes than `buffer_len` returns.
    fn emit(&self, buffer: &mut [u8]);
}

/// A value that is read from bytes, or from a frame.
pub trait Parseable<T: ?Sized>: Sized {
    /// Reads a value.
    ///
    /// # Errors
    ///
    /// The first fault, front to back.
    ///
    /// ```
    /// use linkwire::{LinkXdp, NlaBuffer, Parseable};
    /// let frame = NlaBuffer::new_checked(&[5, 0, 2, 0, 1])?;
    /// assert_eq!(LinkXdp::parse(&frame)?, LinkXdp::Attached(1.try_into()?));
    /// # Ok::<(), linkwire::DecodeError>(())
    /// ```
    fn parse(buf: &T) -> Result<Self, DecodeError>;
}

/// A value that is read from bytes, or from a frame, under a parameter: the family of a message's header.
pub trait ParseableParametrized<T: ?Sized, P>: Sized {
    /// Reads a value.
    ///
    /// # Errors
    ///
    /// The first fault, front to back.
    ///
    /// ```
    /// use linkwire::{AddressFamily, LinkAttribute, NlaBuffer, ParseableParametrized};
    /// let frame = NlaBuffer::new_checked(&[8, 0, 4, 0, 0xdc, 5, 0, 0])?;
    /// assert_eq!(LinkAttribute::parse_with_param(&frame, AddressFamily::Unspec)?, LinkAttribute::Mtu(1500));
    /// # Ok::<(), linkwire::DecodeError>(())
    /// ```
    fn parse_with_param(buf: &T, params: P) -> Result<Self, DecodeError>;
}

/// A value that is written as an attribute: a length and a kind of two bytes each, the value, and zeros up to a
/// multiple of four (rtnetlink(7)).
pub trait Nla {
    /// The length of the value, without header and padding.
    ///
    /// # Panics
    ///
    /// Where the value does not fit: an attribute holds at most 65531 bytes.
    ///
    /// ```
    /// use linkwire::{LinkAttribute, Nla};
    /// let name = LinkAttribute::IfName("lo".to_string());
    /// let mut value = vec![0; name.value_len()];
    /// name.emit_value(&mut value);
    /// assert_eq!((name.kind(), &value[..]), (3, &b"lo\0"[..]));
    /// assert!(!name.is_nested() && !name.is_network_byteorder());
    /// ```
    fn value_len(&self) -> usize;

    /// The kind: the number and both flag bits.
    ///
    /// [`value_len`](Nla::value_len) has an example.
    fn kind(&self) -> u16;

    /// Writes the value into a buffer of exactly its length.
    ///
    /// [`value_len`](Nla::value_len) has an example.
    ///
    /// # Panics
    ///
    /// Where the value does not fit, or the buffer has another length than `value_len` returns.
    fn emit_value(&self, buffer: &mut [u8]);

    /// Whether the kind has the bit `NLA_F_NESTED`.
    ///
    /// [`value_len`](Nla::value_len) has an example.
    fn is_nested(&self) -> bool {
        self.kind() & NLA_F_NESTED != 0
    }

    /// Whether the kind has the bit `NLA_F_NET_BYTEORDER`.
    ///
    /// [`value_len`](Nla::value_len) has an example.
    fn is_network_byteorder(&self) -> bool {
        self.kind() & NLA_F_NET_BYTEORDER != 0
    }
}

impl<T: nla_wire::Nla> Nla for T {
    fn value_len(&self) -> usize {
        match self.measure() {
            Some(len) => len,
            None => does_not_fit(),
        }
    }

    fn kind(&self) -> u16 {
        nla_wire::Nla::kind(self)
    }

    fn emit_value(&self, buffer: &mut [u8]) {
        let len = Nla::value_len(self);
        assert!(buffer.len() == len, "a value of {len} bytes for a buffer of {}", buffer.len());
        nla_wire::Nla::emit_value(self, buffer);
    }
}

#[cold]
fn does_not_fit() -> ! {
    panic!("the value does not fit: an attribute holds at most 65531 bytes")
}

#[cold]
fn too_many() -> ! {
    panic!("the attributes do not fit: they are longer than memory can be")
}

#[cold]
fn no_room(len: usize, room: usize) -> ! {
    panic!("{len} bytes are to be written, and the buffer has {room}")
}

/// The first bytes of a buffer, which are to be written.
#[inline]
fn front(buffer: &mut [u8], len: usize) -> &mut [u8] {
    let room = buffer.len();
    match buffer.get_mut(..len) {
        Some(front) => front,
        None => no_room(len, room),
    }
}

/// The length of the value of an attribute, which fits.
fn fitting_len<T: Nla>(nla: &T) -> usize {
    let len = nla.value_len();
    if len > MOST_VALUE_LEN {
        does_not_fit();
    }
    len
}

impl<T: Nla> Emitable for T {
    fn buffer_len(&self) -> usize {
        nla_wire::padded_len(fitting_len(self))
    }

    fn emit(&self, buffer: &mut [u8]) {
        let len = fitting_len(self);
        let frame = front(buffer, nla_wire::padded_len(len));
        self.emit_value(&mut frame[NLA_HEADER_SIZE..NLA_HEADER_SIZE + len]);
        nla_wire::finish(frame, len, self.kind());
    }
}

impl<T: Nla> Emitable for &[T] {
    fn buffer_len(&self) -> usize {
        let sum = self.iter().try_fold(0_usize, |sum, nla| sum.checked_add(nla.buffer_len()));
        sum.filter(|len| *len <= MOST_LEN).unwrap_or_else(|| too_many())
    }

    fn emit(&self, buffer: &mut [u8]) {
        let mut left = front(buffer, self.buffer_len());
        for nla in *self {
            let (text, rest) = left.split_at_mut(nla.buffer_len());
            nla.emit(text);
            left = rest;
        }
    }
}

impl Emitable for LinkMessage {
    #[inline]
    fn buffer_len(&self) -> usize {
        self.encoded_len()
    }

    /// The message is not measured before it is written. Where it does not fit, or the buffer is too short, the
    /// attributes in front of the one at fault are written, and then it panics.
    #[inline]
    fn emit(&self, buffer: &mut [u8]) {
        self.encode_into(buffer);
    }
}

/// Those that always fit.
macro_rules! emitable {
    ($($type:ident)*) => {$(
        impl Emitable for crate::link_msg::$type {
            #[inline]
            fn buffer_len(&self) -> usize {
                self.encoded_len()
            }

            #[inline]
            fn emit(&self, buffer: &mut [u8]) {
                self.encode_into(front(buffer, self.encoded_len()));
            }
        }
    )*};
}

emitable!(LinkHeader LinkEvent);
emitable!(Map Stats Stats64 InetDevConf Inet6DevConf Inet6CacheInfo Icmp6Stats Inet6Stats VfVlanInfo);
emitable!(VfInfoBroadcast VfInfoGuid VfInfoLinkState VfInfoMac VfInfoRate VfInfoRssQueryEn VfInfoSpoofCheck);
emitable!(VfInfoTrust VfInfoTxRate VfInfoVlan);

impl Emitable for LinkPhysId {
    fn buffer_len(&self) -> usize {
        self.bytes().len()
    }

    fn emit(&self, buffer: &mut [u8]) {
        self.encode_into(front(buffer, self.buffer_len()));
    }
}

impl Emitable for WirelessEvent {
    fn buffer_len(&self) -> usize {
        if !self.fits() {
            does_not_fit();
        }
        self.encoded_len()
    }

    fn emit(&self, buffer: &mut [u8]) {
        self.encode_into(front(buffer, self.buffer_len()));
    }
}

/// Those that are read from an attribute.
macro_rules! parseable {
    ($($type:ident)*) => {$(
        impl<'a, T: AsRef<[u8]> + ?Sized> Parseable<NlaBuffer<&'a T>> for crate::link_msg::$type {
            fn parse(buf: &NlaBuffer<&'a T>) -> Result<Self, DecodeError> {
                NlaRead::parse(&buf.frame()?)
            }
        }
    )*};
}

parseable!(AfSpecBridge AfSpecInet AfSpecInet6 AfSpecMctp AfSpecUnspec DevlinkPort DpllPin LinkInfo);
parseable!(LinkProtoInfoBridge LinkProtoInfoInet6 LinkProtocolDownReason LinkXdp Prop);
parseable!(VfInfo VfPort VfStats VfVlan);

/// Those that are read from the bytes of a value.
macro_rules! parseable_bytes {
    ($($type:ident)*) => {$(
        impl<T: AsRef<[u8]> + ?Sized> Parseable<T> for $type {
            fn parse(buf: &T) -> Result<Self, DecodeError> {
                $type::parse(buf.as_ref())
            }
        }
    )*};
}

parseable_bytes!(LinkEvent WirelessEvent);

/// Those that are read by an inherent call.
macro_rules! try_from {
    ($($type:ident)*) => {$(
        impl TryFrom<&[u8]> for crate::link_msg::$type {
            type Error = DecodeError;

            fn try_from(bytes: &[u8]) -> Result<Self, DecodeError> {
                Self::parse(bytes)
            }
        }
    )*};
}

try_from!(LinkMessage LinkHeader LinkEvent LinkPhysId WirelessEvent);
try_from!(Map Stats Stats64 InetDevConf Inet6DevConf Inet6CacheInfo Icmp6Stats Inet6Stats VfVlanInfo);
try_from!(VfInfoBroadcast VfInfoGuid VfInfoLinkState VfInfoMac VfInfoRate VfInfoRssQueryEn VfInfoSpoofCheck);
try_from!(VfInfoTrust VfInfoTxRate VfInfoVlan);

impl Parseable<[u8]> for LinkMessage {
    fn parse(buf: &[u8]) -> Result<LinkMessage, DecodeError> {
        LinkMessage::parse(buf)
    }
}

impl Parseable<[u8]> for LinkHeader {
    fn parse(buf: &[u8]) -> Result<LinkHeader, DecodeError> {
        LinkHeader::parse(buf)
    }
}

impl Parseable<[u8]> for LinkPhysId {
    fn parse(buf: &[u8]) -> Result<LinkPhysId, DecodeError> {
        LinkPhysId::parse(buf)
    }
}

impl Parseable<[u8]> for LinkVfInfo {
    fn parse(buf: &[u8]) -> Result<LinkVfInfo, DecodeError> {
        Entry::parse(buf)
    }
}

impl<'a, T: AsRef<[u8]> + ?Sized> Parseable<NlaBuffer<&'a T>> for LinkVfInfo {
    fn parse(buf: &NlaBuffer<&'a T>) -> Result<LinkVfInfo, DecodeError> {
        Entry::parse(buf.frame()?.value())
    }
}

impl Parseable<[u8]> for LinkVfPort {
    fn parse(buf: &[u8]) -> Result<LinkVfPort, DecodeError> {
        Entry::parse(buf)
    }
}

impl<'a, T: AsRef<[u8]> + ?Sized> Parseable<NlaBuffer<&'a T>> for LinkVfPort {
    fn parse(buf: &NlaBuffer<&'a T>) -> Result<LinkVfPort, DecodeError> {
        Entry::parse(buf.frame()?.value())
    }
}

impl<'a, T: AsRef<[u8]> + ?Sized> Parseable<NlaBuffer<&'a T>> for DefaultNla {
    fn parse(buf: &NlaBuffer<&'a T>) -> Result<DefaultNla, DecodeError> {
        DefaultNla::of_frame(&buf.frame()?)
    }
}

impl<'a, T: AsRef<[u8]> + ?Sized> ParseableParametrized<NlaBuffer<&'a T>, AddressFamily> for LinkAttribute {
    fn parse_with_param(buf: &NlaBuffer<&'a T>, family: AddressFamily) -> Result<LinkAttribute, DecodeError> {
        LinkAttribute::of_frame_with_param(&buf.frame()?, family)
    }
}

impl ParseableParametrized<[u8], AddressFamily> for Vec<LinkAttribute> {
    fn parse_with_param(buf: &[u8], family: AddressFamily) -> Result<Vec<LinkAttribute>, DecodeError> {
        LinkAttribute::parse_list_with_param(buf, family)
    }
}

/// A frame over bytes: a length and a kind of two bytes each, and a payload (rtnetlink(7)).
#[derive(Clone, Copy, Debug, PartialEq, Eq, Hash)]
pub struct NlaBuffer<T: AsRef<[u8]>> {
    buffer: T,
}

impl<T: AsRef<[u8]>> NlaBuffer<T> {
    /// The frame at the front of these bytes, whatever they are.
    ///
    /// [`new_checked`](NlaBuffer::new_checked) and [`set_kind`](NlaBuffer::set_kind) have examples.
    pub fn new(buffer: T) -> NlaBuffer<T> {
        NlaBuffer { buffer }
    }

    /// The frame at the front of these bytes.
    ///
    /// # Errors
    ///
    /// As `check_buffer_length`.
    ///
    /// ```
    /// use linkwire::{Cause, NlaBuffer};
    /// let bytes = [6, 0, 3, 0x80, b'l', b'o', 0, 0];
    /// let frame = NlaBuffer::new_checked(&bytes)?;
    /// assert_eq!((frame.kind(), frame.length(), frame.value_length(), frame.value()), (3, 6, 2, &b"lo"[..]));
    /// assert!(frame.nested_flag() && !frame.network_byte_order_flag());
    /// assert_eq!(frame.into_inner(), &bytes);
    /// let short = NlaBuffer::new(&bytes[..5]).check_buffer_length().unwrap_err();
    /// assert_eq!(short.cause, Cause::FrameOver { length: 6, left: 5 });
    /// # Ok::<(), linkwire::DecodeError>(())
    /// ```
    pub fn new_checked(buffer: T) -> Result<NlaBuffer<T>, DecodeError> {
        let buffer = NlaBuffer::new(buffer);
        buffer.check_buffer_length()?;
        Ok(buffer)
    }

    /// Whether the bytes begin with a frame.
    ///
    /// [`new_checked`](NlaBuffer::new_checked) has an example.
    ///
    /// # Errors
    ///
    /// [`Cause::FrameShort`] below four bytes, [`Cause::FrameOver`] where the length passes the bytes, and
    /// [`Cause::FrameUnder`] where it is below four.
    pub fn check_buffer_length(&self) -> Result<(), DecodeError> {
        self.frame().map(|_frame| ())
    }

    /// The checked frame.
    pub(crate) fn frame(&self) -> Result<nla_wire::NlaBuffer<'_>, DecodeError> {
        nla_wire::NlaBuffer::new_checked(self.buffer.as_ref())
    }

    /// The bytes.
    ///
    /// [`new_checked`](NlaBuffer::new_checked) has an example.
    pub fn into_inner(self) -> T {
        self.buffer
    }

    fn word(&self, at: usize) -> u16 {
        match self.buffer.as_ref() {
            [a, b, c, d, ..] => u16::from_ne_bytes(if at == 0 { [*a, *b] } else { [*c, *d] }),
            bytes => no_frame(bytes.len()),
        }
    }

    /// The number of the attribute: its kind without the two flag bits.
    ///
    /// [`new_checked`](NlaBuffer::new_checked) has an example.
    ///
    /// # Panics
    ///
    /// Where there are fewer than four bytes.
    pub fn kind(&self) -> u16 {
        self.word(2) & NLA_TYPE_MASK
    }

    /// Whether [`NLA_F_NESTED`] is set.
    ///
    /// [`new_checked`](NlaBuffer::new_checked) has an example.
    ///
    /// # Panics
    ///
    /// Where there are fewer than four bytes.
    pub fn nested_flag(&self) -> bool {
        self.word(2) & NLA_F_NESTED != 0
    }

    /// Whether [`NLA_F_NET_BYTEORDER`] is set.
    ///
    /// [`new_checked`](NlaBuffer::new_checked) has an example.
    ///
    /// # Panics
    ///
    /// Where there are fewer than four bytes.
    pub fn network_byte_order_flag(&self) -> bool {
        self.word(2) & NLA_F_NET_BYTEORDER != 0
    }

    /// The length field: the header and the payload, without padding.
    ///
    /// [`new_checked`](NlaBuffer::new_checked) has an example.
    ///
    /// # Panics
    ///
    /// Where there are fewer than four bytes.
    pub fn length(&self) -> u16 {
        self.word(0)
    }

    /// The length of the payload.
    ///
    /// [`new_checked`](NlaBuffer::new_checked) has an example.
    ///
    /// # Panics
    ///
    /// Where there are fewer than four bytes, or the length field is below four.
    pub fn value_length(&self) -> usize {
        match usize::from(self.length()).checked_sub(NLA_HEADER_SIZE) {
            Some(len) => len,
            None => panic!("a length of {}, below that of a frame's header", self.length()),
        }
    }
}

#[cold]
fn no_frame(len: usize) -> ! {
    panic!("{len} bytes, where the header of a frame has 4")
}

impl<T: AsRef<[u8]> + AsMut<[u8]>> NlaBuffer<T> {
    fn set_word(&mut self, at: usize, word: u16) {
        let bytes = self.buffer.as_mut();
        if bytes.len() < NLA_HEADER_SIZE {
            no_frame(bytes.len());
        }
        bytes[at..at + 2].copy_from_slice(&word.to_ne_bytes());
    }

    /// Sets the number, and clears both flag bits.
    ///
    /// # Panics
    ///
    /// Where there are fewer than four bytes.
    ///
    /// ```
    /// use linkwire::NlaBuffer;
    /// let mut bytes = [0; 6];
    /// let mut frame = NlaBuffer::new(&mut bytes[..]);
    /// frame.set_length(6);
    /// frame.set_kind(3);
    /// frame.set_nested_flag();
    /// frame.set_network_byte_order_flag();
    /// frame.value_mut().copy_from_slice(b"lo");
    /// assert_eq!(bytes, [6, 0, 3, 0xc0, b'l', b'o']);
    /// ```
    pub fn set_kind(&mut self, kind: u16) {
        self.set_word(2, kind & NLA_TYPE_MASK);
    }

    /// Sets [`NLA_F_NESTED`], and keeps the rest of the kind.
    ///
    /// [`set_kind`](NlaBuffer::set_kind) has an example.
    ///
    /// # Panics
    ///
    /// Where there are fewer than four bytes.
    pub fn set_nested_flag(&mut self) {
        self.set_word(2, self.word(2) | NLA_F_NESTED);
    }

    /// Sets [`NLA_F_NET_BYTEORDER`], and keeps the rest of the kind.
    ///
    /// [`set_kind`](NlaBuffer::set_kind) has an example.
    ///
    /// # Panics
    ///
    /// Where there are fewer than four bytes.
    pub fn set_network_byte_order_flag(&mut self) {
        self.set_word(2, self.word(2) | NLA_F_NET_BYTEORDER);
    }

    /// Sets the length field.
    ///
    /// [`set_kind`](NlaBuffer::set_kind) has an example.
    ///
    /// # Panics
    ///
    /// Where there are fewer than four bytes.
    pub fn set_length(&mut self, length: u16) {
        self.set_word(0, length);
    }
}

#[cold]
fn no_payload(length: usize, len: usize) -> ! {
    panic!("a frame of {length} bytes, where {len} are left")
}

impl<'a, T: AsRef<[u8]> + ?Sized> NlaBuffer<&'a T> {
    /// The payload.
    ///
    /// [`new_checked`](NlaBuffer::new_checked) has an example.
    ///
    /// # Panics
    ///
    /// Where the length field passes the bytes, or is below four; `new_checked` refuses that.
    #[must_use]
    pub fn value(&self) -> &'a [u8] {
        let (bytes, end) = (self.buffer.as_ref(), NLA_HEADER_SIZE + self.value_length());
        match bytes.get(NLA_HEADER_SIZE..end) {
            Some(value) => value,
            None => no_payload(end, bytes.len()),
        }
    }
}

impl<T: AsRef<[u8]> + AsMut<[u8]> + ?Sized> NlaBuffer<&mut T> {
    /// The payload, to be changed.
    ///
    /// [`set_kind`](NlaBuffer::set_kind) has an example.
    ///
    /// # Panics
    ///
    /// Where the length field passes the bytes, or is below four; `new_checked` refuses that.
    pub fn value_mut(&mut self) -> &mut [u8] {
        let end = NLA_HEADER_SIZE + self.value_length();
        let bytes = self.buffer.as_mut();
        let len = bytes.len();
        match bytes.get_mut(NLA_HEADER_SIZE..end) {
            Some(value) => value,
            None => no_payload(end, len),
        }
    }
}

/// The frames of a byte string, one after the other. Where one is damaged its fault comes in its place, and nothing
/// after it.
///
/// After a frame it goes on at the next multiple of four. Padding is not looked at, and after the last frame it can be
/// missing.
#[derive(Clone, Copy, Debug, PartialEq, Eq, Hash)]
pub struct NlasIterator<T> {
    position: usize,
    buffer: T,
}

impl<T> NlasIterator<T> {
    /// The frames of these bytes.
    ///
    /// ```
    /// use linkwire::NlasIterator;
    /// let frames: Result<Vec<_>, _> = NlasIterator::new(&[8, 0, 4, 0, 0xdc, 5, 0, 0, 5, 0, 16, 0, 6]).collect();
    /// assert_eq!(frames?.iter().map(|it| it.kind()).collect::<Vec<_>>(), [4, 16]);
    /// # Ok::<(), linkwire::DecodeError>(())
    /// ```
    pub fn new(buffer: T) -> NlasIterator<T> {
        NlasIterator { position: 0, buffer }
    }
}

impl<'a, T: AsRef<[u8]> + ?Sized> Iterator for NlasIterator<&'a T> {
    type Item = Result<NlaBuffer<&'a [u8]>, DecodeError>;

    fn next(&mut self) -> Option<Result<NlaBuffer<&'a [u8]>, DecodeError>> {
        let bytes = self.buffer.as_ref();
        let left = match bytes.get(self.position..) {
            Some(left) if !left.is_empty() => left,
            _ => return None,
        };
        let frame = NlaBuffer::new_checked(left);
        self.position += match &frame {
            Ok(frame) => nla_wire::padded_len(frame.value_length()),
            Err(_) => left.len(),
        };
        Some(frame)
    }
}

/// Numbers that are written to the front of a buffer.
macro_rules! emit {
    ($($name:ident $type:ident)*) => {$(
        /// Writes a number to the front of the buffer in host order, and keeps the rest.
        ///
        /// # Errors
        ///
        /// [`Cause::TooShort`] where the buffer has fewer bytes than the number; it is unchanged then.
        ///
        /// ```
        /// let mut buffer = [0xff; 9];
        /// linkwire::emit_u16(&mut buffer, 1500)?;
        /// linkwire::emit_u32(&mut buffer[2..], 7)?;
        /// assert_eq!(buffer, [0xdc, 5, 7, 0, 0, 0, 0xff, 0xff, 0xff]);
        /// # Ok::<(), linkwire::DecodeError>(())
        /// ```
        pub fn $name(buffer: &mut [u8], value: $type) -> Result<(), DecodeError> {
            let bytes = value.to_ne_bytes();
            let got = buffer.len();
            match buffer.get_mut(..bytes.len()) {
                Some(front) => {
                    front.copy_from_slice(&bytes);
                    Ok(())
                }
                None => Err(DecodeError::new("payload", Cause::TooShort { got, need: bytes.len() })),
            }
        }
    )*};
}

emit!(emit_u16 u16 emit_u32 u32 emit_u64 u64 emit_i32 i32);
