//! What payloads are read as, and written: numbers, addresses, texts, records, lists.

use super::{BridgeId, Typed, emit, parse};
use crate::link_info::read::read;
use crate::link_info::{Style, Value};
use crate::link_msg::{LinkMessage, VlanProtocol};
use crate::nla_wire::{NLA_HEADER_SIZE, NlasIterator, padded_len};
use crate::rattle::net::{Ipv4Addr, Ipv6Addr};
use alloc::string::String;
use alloc::vec::Vec;
use core::fmt;
use core::mem::size_of;

/// A value of a fixed size, by its bytes: a number's in host order.
pub trait Part: Sized {
    type Bytes: Copy + AsRef<[u8]> + AsMut<[u8]> + for<'a> TryFrom<&'a [u8]>;
    fn of(bytes: Self::Bytes) -> Option<Self>;
    fn bytes(&self) -> Self::Bytes;
}

macro_rules! parts {
    ($($type:ty, $size:literal, $of:expr, $bytes:expr;)*) => {$(
        impl Part for $type {
            type Bytes = [u8; $size];

            #[inline]
            fn of(bytes: Self::Bytes) -> Option<Self> {
                Some($of(bytes))
            }

            #[inline]
            fn bytes(&self) -> Self::Bytes {
                $bytes(*self)
            }
        }
    )*};
}

parts! {
    u8, 1, u8::from_ne_bytes, u8::to_ne_bytes;
    u16, 2, u16::from_ne_bytes, u16::to_ne_bytes;
    u32, 4, u32::from_ne_bytes, u32::to_ne_bytes;
    u64, 8, u64::from_ne_bytes, u64::to_ne_bytes;
    i32, 4, i32::from_ne_bytes, i32::to_ne_bytes;
    Ipv4Addr, 4, Ipv4Addr::from, |it: Ipv4Addr| it.octets();
    Ipv6Addr, 16, Ipv6Addr::from, |it: Ipv6Addr| it.octets();
    [u8; 6], 6, |it| it, |it| it;
    [u8; 16], 16, |it| it, |it| it;
}

/// Each other number is read as 802.1q, as in netlink-packet-route: it is kept as it is.
impl Part for VlanProtocol {
    type Bytes = [u8; 2];

    #[inline]
    fn of(bytes: Self::Bytes) -> Option<Self> {
        let protocol = VlanProtocol::from(u16::from_ne_bytes(bytes));
        (protocol.bytes() == bytes).then_some(protocol)
    }

    #[inline]
    fn bytes(&self) -> Self::Bytes {
        u16::from(*self).to_ne_bytes()
    }
}

/// The value of all these bytes.
#[inline]
fn part<T: Part>(bytes: &[u8]) -> Option<T> {
    T::of(bytes.try_into().ok()?)
}

/// The bytes of a number in network order, out of those in host order; and back.
#[inline]
fn network<T: AsMut<[u8]>>(mut bytes: T) -> T {
    if cfg!(target_endian = "little") {
        bytes.as_mut().reverse();
    }
    bytes
}

/// The bytes in front of a record.
#[inline]
fn front<T: for<'a> TryFrom<&'a [u8]>>(left: &mut &[u8]) -> Option<T> {
    let (bytes, rest) = (left.get(..size_of::<T>())?, left.get(size_of::<T>()..)?);
    *left = rest;
    bytes.try_into().ok()
}

/// Adds an attribute of this kind.
#[inline]
pub(crate) fn push_frame(out: &mut Vec<u8>, kind: u16, payload: &[u8]) {
    let start = begin(out, kind);
    out.extend_from_slice(payload);
    close(out, start);
}

/// Adds an attribute of at most 16 bytes, at once.
#[inline]
fn push_fixed(out: &mut Vec<u8>, kind: u16, payload: &[u8]) {
    let mut frame = [0; NLA_HEADER_SIZE + 16];
    let len = NLA_HEADER_SIZE + payload.len();
    frame[..2].copy_from_slice(&(len as u16).to_ne_bytes());
    frame[2..4].copy_from_slice(&kind.to_ne_bytes());
    frame[4..len].copy_from_slice(payload);
    out.extend_from_slice(&frame[..padded_len(payload.len())]);
}

/// Adds the header of an attribute whose length is not known: where it begins.
#[inline]
fn begin(out: &mut Vec<u8>, kind: u16) -> usize {
    let [low, high] = kind.to_ne_bytes();
    out.extend_from_slice(&[0, 0, low, high]);
    out.len() - NLA_HEADER_SIZE
}

/// Writes the length of the attribute that begins there, and its padding.
#[inline]
fn close(out: &mut Vec<u8>, start: usize) {
    let len = out.len() - start;
    assert!(len <= usize::from(u16::MAX), "the value does not fit: an attribute holds at most 65531 bytes");
    out[start..start + 2].copy_from_slice(&(len as u16).to_ne_bytes());
    let padding = padded_len(len - NLA_HEADER_SIZE) - len;
    out.extend_from_slice(&[0; 3][..padding]);
}

/// A value of a fixed size: a number in host order, an address, bytes.
pub(crate) mod host {
    use super::{Part, Vec, front, part, push_fixed};

    #[inline]
    pub(crate) fn read<T: Part>(payload: &[u8]) -> Option<T> {
        part(payload)
    }

    #[inline]
    pub(crate) fn push<T: Part>(out: &mut Vec<u8>, kind: u16, it: &T) {
        push_fixed(out, kind, it.bytes().as_ref());
    }

    #[inline]
    pub(crate) fn take<T: Part>(left: &mut &[u8]) -> Option<T> {
        T::of(front(left)?)
    }

    #[inline]
    pub(crate) fn add<T: Part>(out: &mut Vec<u8>, it: &T) {
        out.extend_from_slice(it.bytes().as_ref());
    }
}

/// A number in network order, highest byte first.
pub(crate) mod net {
    use super::{Part, Vec, front, network, push_fixed};

    #[inline]
    pub(crate) fn read<T: Part>(payload: &[u8]) -> Option<T> {
        T::of(network(payload.try_into().ok()?))
    }

    #[inline]
    pub(crate) fn push<T: Part>(out: &mut Vec<u8>, kind: u16, it: &T) {
        push_fixed(out, kind, network(it.bytes()).as_ref());
    }

    #[inline]
    pub(crate) fn take<T: Part>(left: &mut &[u8]) -> Option<T> {
        T::of(network(front(left)?))
    }

    #[inline]
    pub(crate) fn add<T: Part>(out: &mut Vec<u8>, it: &T) {
        out.extend_from_slice(network(it.bytes()).as_ref());
    }
}

/// A record, a structure of the kernel.
pub(crate) trait Members: Sized {
    fn take(left: &mut &[u8]) -> Option<Self>;
    fn add(&self, out: &mut Vec<u8>);
}

pub(crate) mod record {
    use super::{Members, Vec, begin, close};

    #[inline]
    pub(crate) fn read<T: Members>(payload: &[u8]) -> Option<T> {
        let mut left = payload;
        let record = T::take(&mut left)?;
        left.is_empty().then_some(record)
    }

    #[inline]
    pub(crate) fn push<T: Members>(out: &mut Vec<u8>, kind: u16, it: &T) {
        let start = begin(out, kind);
        it.add(out);
        close(out, start);
    }
}

pub(crate) mod text {
    use super::{String, Style, Value, Vec, begin, close};

    pub(crate) fn read(payload: &[u8]) -> Option<String> {
        if let Value::Text(text) = super::read(Style::Text, payload) { Some(String::from(text)) } else { None }
    }

    pub(crate) fn push(out: &mut Vec<u8>, kind: u16, it: &str) {
        let start = begin(out, kind);
        out.extend_from_slice(it.as_bytes());
        out.push(0);
        close(out, start);
    }
}

pub(crate) mod bytes {
    use super::{Vec, push_frame};

    pub(crate) fn read(payload: &[u8]) -> Option<Vec<u8>> {
        Some(payload.to_vec())
    }

    pub(crate) fn push(out: &mut Vec<u8>, kind: u16, it: &[u8]) {
        push_frame(out, kind, it);
    }
}

/// A message of a link, where it is written as it was.
pub(crate) mod message {
    use super::{LinkMessage, Vec, push_frame};

    pub(crate) fn read(payload: &[u8]) -> Option<LinkMessage> {
        let message = LinkMessage::parse(payload).ok()?;
        (message.to_vec().ok()? == payload).then_some(message)
    }

    pub(crate) fn push(out: &mut Vec<u8>, kind: u16, it: &LinkMessage) {
        let bytes = it.to_vec();
        push_frame(out, kind, &bytes.expect("the message does not fit: `fits` tells"));
    }
}

/// Values of one fixed size, one after the other.
pub(crate) mod array {
    use super::{Part, Vec, begin, close, host, part, size_of};

    pub(crate) fn read<T: Part>(payload: &[u8]) -> Option<Vec<T>> {
        payload.chunks(size_of::<T::Bytes>()).map(part).collect()
    }

    pub(crate) fn push<T: Part>(out: &mut Vec<u8>, kind: u16, it: &[T]) {
        let start = begin(out, kind);
        it.iter().for_each(|one| host::add(out, one));
        close(out, start);
    }
}

/// A list whose numbers ascend from 0, as the kernel has them, and whose padding is zero.
pub(crate) mod list {
    use super::{NlasIterator, Part, Vec, begin, close, host, part};

    pub(crate) fn read<T: Part>(payload: &[u8]) -> Option<Vec<T>> {
        let mut found = Vec::new();
        for (k, frame) in NlasIterator::new(payload).enumerate() {
            let frame = frame.ok()?;
            if usize::from(frame.kind_with_flags()) != k {
                return None;
            }
            found.push(part(frame.value())?);
        }
        let mut again = Vec::new();
        add(&mut again, &found);
        (again == payload).then_some(found)
    }

    pub(crate) fn push<T: Part>(out: &mut Vec<u8>, kind: u16, it: &[T]) {
        let start = begin(out, kind);
        add(out, it);
        close(out, start);
    }

    fn add<T: Part>(out: &mut Vec<u8>, it: &[T]) {
        it.iter().enumerate().for_each(|(k, one)| host::push(out, k as u16, one));
    }
}

/// The attributes of a nest, where they are written as they were.
pub(crate) mod nest {
    use super::{Typed, Vec, emit, parse, push_frame};

    pub(crate) fn read<T: Typed>(payload: &[u8]) -> Option<Vec<T>> {
        let list = parse(payload).ok()?;
        (emit(&list) == payload).then_some(list)
    }

    pub(crate) fn push<T: Typed>(out: &mut Vec<u8>, kind: u16, it: &[T]) {
        push_frame(out, kind, &emit(it));
    }
}

/// A set as bitflags shows it: `VlanFlags(ReorderHdr | 0x20)`.
pub(crate) fn write_flags(f: &mut fmt::Formatter<'_>, name: &str, bits: u64, names: &[(u64, &str)]) -> fmt::Result {
    let (mut left, mut bar) = (bits, "");
    write!(f, "{name}(")?;
    for (bit, text) in names {
        if *bit != 0 && left & bit == *bit {
            write!(f, "{bar}{text}")?;
            left &= !bit;
            bar = " | ";
        }
    }
    if left != 0 || bits == 0 {
        write!(f, "{bar}{left:#x}")?;
    }
    f.write_str(")")
}

/// The bytes of a bridge's id: its priority, highest byte first, and its address.
#[derive(Clone, Copy, Debug, PartialEq, Eq, Hash)]
pub struct BridgeIdBuffer([u8; 8]);

impl BridgeIdBuffer {
    /// The bytes.
    ///
    /// ```
    /// use linkwire::link::{BridgeId, BridgeIdBuffer};
    /// let id = BridgeId { priority: 0x8000, address: [2, 0, 0, 0, 0, 1] };
    /// assert_eq!(BridgeIdBuffer::from(&id).as_bytes(), [0x80, 0, 2, 0, 0, 0, 0, 1]);
    /// ```
    #[must_use]
    pub fn as_bytes(&self) -> &[u8] {
        &self.0
    }
}

impl From<&BridgeId> for BridgeIdBuffer {
    fn from(id: &BridgeId) -> Self {
        let ([high, low], [a, b, c, d, e, f]) = (id.priority.to_be_bytes(), id.address);
        BridgeIdBuffer([high, low, a, b, c, d, e, f])
    }
}
