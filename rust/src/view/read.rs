//! How payloads are read over borrowed bytes.

use super::{ListView, Place};
use crate::link_view::LinkView;
use crate::nla_wire::{NLA_HEADER_SIZE, NlasIterator, borrow_string, padded_len};
use crate::typed::parts::Part;
use crate::{DecodeError, LinkMessage};
use core::fmt;
use core::iter::FusedIterator;
use core::marker::PhantomData;
use core::mem::size_of;

type Read<T> = Result<Option<T>, DecodeError>;

pub(super) fn text(payload: &[u8]) -> Read<&str> {
    borrow_string(payload).map(Some)
}

// ** the data of kinds: what is not of the form is `Other`, and so is what would not be written as it was

pub(super) mod forms {
    use super::*;

    pub(crate) fn bytes(payload: &[u8]) -> Option<&[u8]> {
        Some(payload)
    }

    pub(crate) fn text(payload: &[u8]) -> Option<&str> {
        super::text(payload).ok().flatten()
    }

    pub(crate) fn message(payload: &[u8]) -> Option<LinkView<'_>> {
        LinkMessage::check(payload).and_then(|_| LinkView::peek(payload)).ok()
    }

    /// Values one after the other.
    pub(crate) fn array<T: Part>(payload: &[u8]) -> Option<Values<'_, T>> {
        let size = size_of::<T::Bytes>();
        let values = Values { left: payload, skipped: 0, step: size, value: PhantomData };
        (payload.len() % size == 0 && values.clone().count() == payload.len() / size).then_some(values)
    }

    /// A list whose numbers ascend from 0, as the kernel has them, and whose padding is zero.
    pub(crate) fn list<T: Part>(payload: &[u8]) -> Option<Values<'_, T>> {
        let size = size_of::<T::Bytes>();
        let ascend = |(k, frame): (usize, Result<_, _>)| {
            let frame: crate::nla_wire::NlaBuffer<'_> = frame.ok()?;
            let is_next = usize::from(frame.kind_with_flags()) == k && frame.value().len() == size;
            is_next.then_some(())
        };
        let frames = NlasIterator::new(payload).enumerate();
        let are_next = frames.map(ascend).all(|it| it.is_some());
        let step = padded_len(size);
        let values = Values { left: payload, skipped: NLA_HEADER_SIZE, step, value: PhantomData };
        let is_whole = are_next && is_padded(payload) && values.clone().count() == payload.len() / step;
        is_whole.then_some(values)
    }

    /// The attributes of a nest, where they would be written as they are.
    pub(crate) fn nest<P: Nest>(payload: &[u8]) -> Option<ListView<'_, P>> {
        let comes_back = |frame: Result<crate::nla_wire::NlaBuffer<'_>, _>| match frame {
            Ok(frame) => P::comes_back(frame.kind_with_flags(), frame.value()),
            Err(_) => false,
        };
        let all = NlasIterator::new(payload).all(comes_back) && is_padded(payload);
        all.then(|| ListView::of(payload))
    }
}

/// A place of which the data of a kind consist.
pub trait Nest: for<'a> Place<'a> {
    /// Whether an attribute would be written as it is: all are but a text without a NUL at its end.
    fn comes_back(kind: u16, payload: &[u8]) -> bool;
}

/// Whether a text would be written as it is: with a NUL at its end, or kept as bytes.
pub(super) fn ends_in_nul(payload: &[u8]) -> bool {
    payload.last() == Some(&0) || core::str::from_utf8(payload).is_err()
}

/// Whether padding of zeros stands after each of these frames, which are whole.
fn is_padded(list: &[u8]) -> bool {
    let mut left = list;
    for frame in NlasIterator::new(list).flatten() {
        let end = NLA_HEADER_SIZE + frame.value().len();
        match left.get(end..padded_len(frame.value().len())) {
            Some(padding) if padding.iter().all(|it| *it == 0) => left = &left[end + padding.len()..],
            _ => return false,
        }
    }
    true
}

/// Numbers or addresses of one size, front to back: the value of an array, or of a list of attributes.
///
/// ```
/// use linkwire::view::{info_bond, InfoDataView, Values};
/// use std::net::Ipv4Addr;
///
/// // Two targets of a bond.
/// let data = b"\x14\0\x08\0\x08\0\0\0\x0a\0\0\x01\x08\0\x01\0\x0a\0\0\x02";
/// if let InfoDataView::Bond(bond) = InfoDataView::new("bond", data)? {
///     let targets: Values<'_, Ipv4Addr> = bond.get(info_bond::ArpIpTarget)?.unwrap();
///     assert_eq!(targets.len(), 2);
///     assert!(targets.eq([Ipv4Addr::new(10, 0, 0, 1), Ipv4Addr::new(10, 0, 0, 2)]));
/// }
/// # Ok::<(), linkwire::DecodeError>(())
/// ```
pub struct Values<'a, T> {
    left: &'a [u8],
    /// How many bytes stand in front of each value, and from one to the next.
    skipped: usize,
    step: usize,
    value: PhantomData<fn() -> T>,
}

impl<T> Clone for Values<'_, T> {
    fn clone(&self) -> Self {
        Values { value: PhantomData, ..*self }
    }
}

impl<T: Part + fmt::Debug> fmt::Debug for Values<'_, T> {
    fn fmt(&self, f: &mut fmt::Formatter<'_>) -> fmt::Result {
        f.debug_list().entries(self.clone()).finish()
    }
}

impl<T: Part> Iterator for Values<'_, T> {
    type Item = T;

    fn next(&mut self) -> Option<T> {
        let (one, rest) = (self.left.get(..self.step)?, self.left.get(self.step..)?);
        let value = one.get(self.skipped..self.skipped + size_of::<T::Bytes>())?;
        self.left = rest;
        T::of(value.try_into().ok()?)
    }

    fn size_hint(&self) -> (usize, Option<usize>) {
        let len = self.left.len() / self.step;
        (len, Some(len))
    }
}

impl<T: Part> ExactSizeIterator for Values<'_, T> {}

impl<T: Part> FusedIterator for Values<'_, T> {}
