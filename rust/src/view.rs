//! Typed views of a message over borrowed bytes: no memory is taken, and only what is asked for is read.
//!
//! [`LinkView::new`] checks the message and its inner lists, as [`LinkMessage::parse`](crate::LinkMessage::parse) does,
//! and [`LinkView::peek`] its header alone. Neither checks the data of a kind: `data()` and `port_data()` do.
//!
//! A **key** is a type that stands for a variant of [`LinkAttribute`] and has its name: of the last attribute of its
//! number [`get`](LinkView::get) reads the value that `parse` gives under that variant, over borrowed bytes.
//! [`iter`](LinkView::iter) reads all, front to back.
//!
//! ```
//! use linkwire::view::{AttributeView, IfName, LinkView, Mtu, OperState};
//!
//! // Interface 7: the name "lo", and an MTU.
//! let bytes = b"\0\x09\x01\0\x07\0\0\0\0\0\0\0\0\0\0\0\x07\0\x03\0lo\0\0\x08\0\x04\0\xdc\x05\0\0";
//! let view = LinkView::new(bytes)?;
//! assert_eq!(view.header().index, 7);
//! assert_eq!(view.get(Mtu)?, Some(1500));
//! assert_eq!(view.get((IfName, Mtu, OperState))?, (Some("lo"), Some(1500), None));
//! for attribute in view.iter() {
//!     match attribute? {
//!         AttributeView::IfName(name) => assert_eq!(name, "lo"),
//!         AttributeView::Mtu(mtu) => assert_eq!(mtu, 1500),
//!         other => println!("{other:?}"),
//!     }
//! }
//! # Ok::<(), linkwire::DecodeError>(())
//! ```
//!
//! # Lists inside of attributes
//!
//! The value of a list is a [`ListView`]: it has [`get`](ListView::get) and [`iter`](ListView::iter) too, with keys of
//! its own. The keys of an enum stand in the module of its name: those of [`VfInfo`](crate::VfInfo) in [`vf_info`],
//! those of [`InfoVlan`](crate::typed::InfoVlan) in [`info_vlan`].
//!
//! Other names of an interface:
//!
//! ```
//! use linkwire::view::{prop, LinkView, PropList};
//!
//! let mut bytes = vec![0; 16];
//! bytes.extend(b"\x0c\0\x34\x80\x07\0\x35\0up\0\0");
//! for name in LinkView::new(&bytes)?.get(PropList)?.unwrap().iter() {
//!     assert!(matches!(name?, prop::Member::AltIfName("up")));
//! }
//! # Ok::<(), linkwire::DecodeError>(())
//! ```
//!
//! The settings of IPv6 and of IPv4:
//!
//! ```
//! use linkwire::view::{af_spec_inet6, af_spec_unspec, AfSpecUnspec, LinkView};
//! use linkwire::In6AddrGenMode;
//!
//! let mut bytes = vec![0; 16];
//! bytes.extend(b"\x10\0\x1a\0\x0c\0\x0a\0\x05\0\x08\0\x01\0\0\0");
//! let families = LinkView::new(&bytes)?.get(AfSpecUnspec)?.unwrap();
//! let (inet, inet6) = families.get((af_spec_unspec::Inet, af_spec_unspec::Inet6))?;
//! assert!(inet.is_none());
//! assert_eq!(inet6.unwrap().get(af_spec_inet6::AddrGenMode)?, Some(In6AddrGenMode::None));
//! # Ok::<(), linkwire::DecodeError>(())
//! ```
//!
//! Virtual functions:
//!
//! ```
//! use linkwire::view::{vf_info, LinkView, VfInfoList};
//!
//! // Function 3 is trusted.
//! let mut bytes = vec![0; 16];
//! bytes.extend(b"\x14\0\x16\0\x10\0\x01\0\x0c\0\x09\0\x03\0\0\0\x01\0\0\0");
//! for function in LinkView::new(&bytes)?.get(VfInfoList)?.unwrap().iter() {
//!     let trust = function?.get(vf_info::Trust)?.unwrap();
//!     assert_eq!((trust.vf_id, trust.enabled), (3, true));
//! }
//! # Ok::<(), linkwire::DecodeError>(())
//! ```
//!
//! The kind of an interface, and the data of its kind:
//!
//! ```
//! use linkwire::view::{info_vlan, InfoDataView, LinkInfo, LinkView};
//!
//! // A vlan with the id 100.
//! let mut bytes = vec![0; 16];
//! bytes.extend(b"\x18\0\x12\0\x08\0\x01\0vlan\x0c\0\x02\0\x06\0\x01\0\x64\0\0\0");
//! let info = LinkView::new(&bytes)?.get(LinkInfo)?.unwrap();
//! assert_eq!(info.kind()?, Some("vlan"));
//! if let Some(InfoDataView::Vlan(vlan)) = info.data()? {
//!     assert_eq!(vlan.get(info_vlan::Id)?, Some(100));
//! }
//! # Ok::<(), linkwire::DecodeError>(())
//! ```
//!
//! # What is proved
//!
//! In the sources that this crate is made from these parts are proved: the check of the message, the search for the
//! last attribute of a number, or of each of several in one pass, the reading of its value, and going over the entries
//! of the lists of virtual functions and ports. Keys and `iter` call them. By contract that value is the variant and
//! the value that `parse` gives, in a message and in each list inside, and the entries are those that it gives, in
//! order. Written by hand are the choice of the variant that a key names, and the data of kinds. This crate is tested
//! to give the same answers; it is not proved itself. The tests compare all of it with what `parse` gives, on every
//! stored message.

#[macro_use]
mod macros;
mod info;
mod read;

use crate::link_view::attributes::BorrowedAttributes;
use crate::link_view::message_view::last_in;
use crate::link_view::sought::{Sought, frame_of, last_each};
use crate::nla_wire::{NlaBuffer, NlasIterator};
use crate::{AddressFamily, Attribute, Attributes, DecodeError, LinkAttribute};
use core::fmt;
use core::iter::FusedIterator;
use core::marker::PhantomData;

#[doc(no_inline)]
pub use crate::link_view::LinkView;
pub use crate::link_view::payload::WirelessEventView;
pub use info::{InfoDataView, InfoPortDataView, LinkXstatsView};
pub use read::Values;

impl Copy for LinkView<'_> {}

/// What a list holds, as [`LinkAttribute`] of a message or [`VfInfo`](crate::VfInfo) of a virtual function.
///
/// The enums of this crate that are read from lists have it. [`ListView`] has an example.
pub trait Place<'a>: Sized {
    /// An attribute of the list over borrowed bytes.
    type Member: fmt::Debug;

    /// The attribute under the header's family, which inner lists do not look at; `None` where the list drops it.
    ///
    /// # Errors
    ///
    /// The fault of the payload.
    ///
    /// [`ListView`] has an example of what is made of it.
    fn member(attribute: Attribute<'a>, family: AddressFamily) -> Result<Option<Self::Member>, DecodeError>;

    #[doc(hidden)]
    #[inline]
    #[must_use]
    fn frames(list: &'a [u8]) -> NlasIterator<'a> {
        NlasIterator::new(list)
    }

    #[doc(hidden)]
    #[inline]
    fn next(left: &mut BorrowedAttributes<'a>) -> Option<Result<Self::Member, DecodeError>> {
        loop {
            let read = left.frames.next()?.and_then(|frame| Self::member(Attribute::new(frame), left.family));
            if let Some(item) = read.transpose() {
                return Some(item);
            }
        }
    }
}

/// A key: the number of an attribute, and what its value is over borrowed bytes.
///
/// A program can have its own, as for a number that the crate does not name yet:
///
/// ```
/// use linkwire::view::{Key, LinkView};
/// use linkwire::{AddressFamily, Attribute, DecodeError, LinkAttribute};
///
/// #[derive(Clone, Copy)]
/// struct Newer;
///
/// impl<'a> Key<'a> for Newer {
///     type Place = LinkAttribute;
///     type Value = &'a [u8];
///     const NUMBER: u16 = 99;
///     fn read(attribute: Attribute<'a>, _: AddressFamily) -> Result<Option<&'a [u8]>, DecodeError> {
///         Ok(Some(attribute.payload()))
///     }
/// }
///
/// let bytes = b"\0\0\x01\0\x07\0\0\0\0\0\0\0\0\0\0\0\x05\0\x63\0\x09";
/// assert_eq!(LinkView::new(bytes)?.get(Newer)?, Some(&b"\x09"[..]));
/// # Ok::<(), DecodeError>(())
/// ```
pub trait Key<'a> {
    /// The list that it is in: [`LinkAttribute`] of a message.
    type Place;

    /// The value: a number, an enum or a record, or what borrows from the message.
    type Value;

    /// The kernel's number, such as `IFLA_MTU`.
    const NUMBER: u16;

    /// The value of an attribute of this number under the header's family; `None` where the family or the size of the
    /// payload makes it another variant.
    ///
    /// # Errors
    ///
    /// The fault of the payload, as `LinkMessage::parse` has it. There is none after [`LinkView::new`], and none in the
    /// data of a kind, which `data()` and `port_data()` check.
    ///
    /// [`Key`] has an example.
    fn read(attribute: Attribute<'a>, family: AddressFamily) -> Result<Option<Self::Value>, DecodeError>;

    #[doc(hidden)]
    #[inline]
    fn of_message(view: &LinkView<'a>) -> Result<Option<Self::Value>, DecodeError>
    where
        Self: Sized,
    {
        value::<Self>(view.last(Self::NUMBER)?, view.header().interface_family)
    }

    #[doc(hidden)]
    #[inline]
    fn of_list(list: &'a [u8]) -> Result<Option<Self::Value>, DecodeError>
    where
        Self: Sized,
    {
        value::<Self>(last_in(list, Self::NUMBER)?, AddressFamily::Unspec)
    }

    #[doc(hidden)]
    #[inline]
    fn found_in_message(view: &LinkView<'a>, sought: Sought) -> Result<Option<Self::Value>, DecodeError>
    where
        Self: Sized,
    {
        value::<Self>(view.found(sought)?, view.header().interface_family)
    }

    #[doc(hidden)]
    #[inline]
    fn found_in_list(list: &'a [u8], sought: Sought) -> Result<Option<Self::Value>, DecodeError>
    where
        Self: Sized,
    {
        value::<Self>(frame_of(list, sought)?, AddressFamily::Unspec)
    }
}

/// A key, or a tuple of up to eight of one list.
///
/// [`LinkView::get`] has an example.
pub trait Keys<'a> {
    /// The list that they are in.
    type Place;

    /// Of each key its value, or `None`.
    type Values;

    #[doc(hidden)]
    fn of_message(self, view: &LinkView<'a>) -> Result<Self::Values, DecodeError>;

    #[doc(hidden)]
    fn of_list(self, list: &'a [u8]) -> Result<Self::Values, DecodeError>;
}

impl<'a, K: Key<'a>> Keys<'a> for K {
    type Place = K::Place;
    type Values = Option<K::Value>;

    #[inline]
    fn of_message(self, view: &LinkView<'a>) -> Result<Option<K::Value>, DecodeError> {
        K::of_message(view)
    }

    #[inline]
    fn of_list(self, list: &'a [u8]) -> Result<Option<K::Value>, DecodeError> {
        K::of_list(list)
    }
}

/// The value of an attribute, if there is one.
#[inline]
fn value<'a, K: Key<'a>>(found: Option<NlaBuffer<'a>>, family: AddressFamily) -> Result<Option<K::Value>, DecodeError> {
    match found {
        Some(frame) => K::read(Attribute::new(frame), family),
        None => Ok(None),
    }
}

macro_rules! tuples {
    ($($key:ident $sought:ident)+; $first:ident $($other:ident)*) => {
        impl<'a, $first: Key<'a>, $($other: Key<'a, Place = $first::Place>),*> Keys<'a> for ($first, $($other,)*) {
            type Place = $first::Place;
            type Values = ($(Option<$key::Value>,)+);

            #[inline]
            fn of_message(self, view: &LinkView<'a>) -> Result<Self::Values, DecodeError> {
                let mut sought = [$(Sought::new($key::NUMBER)),+];
                view.find(&mut sought)?;
                let [$($sought),+] = sought;
                Ok(($($key::found_in_message(view, $sought)?,)+))
            }

            #[inline]
            fn of_list(self, list: &'a [u8]) -> Result<Self::Values, DecodeError> {
                let mut sought = [$(Sought::new($key::NUMBER)),+];
                last_each(list, &mut sought)?;
                let [$($sought),+] = sought;
                Ok(($($key::found_in_list(list, $sought)?,)+))
            }
        }
    };
}

tuples!(A a; A);
tuples!(A a B b; A B);
tuples!(A a B b C c; A B C);
tuples!(A a B b C c D d; A B C D);
tuples!(A a B b C c D d E e; A B C D E);
tuples!(A a B b C c D d E e F f; A B C D E F);
tuples!(A a B b C c D d E e F f G g; A B C D E F G);
tuples!(A a B b C c D d E e F f G g H h; A B C D E F G H);

impl<'a> LinkView<'a> {
    /// The value of a key, or those of a tuple of up to eight keys in one pass: that of the last attribute of its
    /// number, as the kernel reads a list, or `None` where there is none or it is another variant.
    ///
    /// After [`new`](LinkView::new) it is the value that `LinkMessage::parse` gives under that variant.
    ///
    /// # Errors
    ///
    /// After [`peek`](LinkView::peek) the fault of the frames, or of a value that is asked for; after `new` there is
    /// none.
    ///
    /// ```
    /// use linkwire::view::{IfName, LinkView, Mtu};
    /// let bytes = b"\0\0\x01\0\x07\0\0\0\0\0\0\0\0\0\0\0\x07\0\x03\0lo\0\0\x07\0\x04\0\xdc\x05\0";
    /// assert!(LinkView::new(bytes).is_err());
    /// let view = LinkView::peek(bytes)?;
    /// assert_eq!(view.get(IfName)?, Some("lo"));
    /// assert!(view.get(Mtu).is_err());
    /// # Ok::<(), linkwire::DecodeError>(())
    /// ```
    #[inline]
    pub fn get<K: Keys<'a, Place = LinkAttribute>>(&self, keys: K) -> Result<K::Values, DecodeError> {
        keys.of_message(self)
    }

    /// The attributes, front to back: after [`new`](LinkView::new) exactly those that `LinkMessage::parse` reads.
    ///
    /// The page of this module has an example.
    #[must_use]
    pub fn iter(&self) -> Members<'a, LinkAttribute> {
        Members::of(self.values())
    }
}

impl<'a> IntoIterator for &LinkView<'a> {
    type Item = Result<AttributeView<'a>, DecodeError>;
    type IntoIter = Members<'a, LinkAttribute>;

    fn into_iter(self) -> Members<'a, LinkAttribute> {
        self.iter()
    }
}

/// A list inside of an attribute over borrowed bytes. `P` is the enum of its attributes, and its keys stand in the
/// module that has the name of that enum: those of `ListView<'_, LinkXdp>` in [`link_xdp`].
///
/// ```
/// use linkwire::view::{link_xdp, LinkView, ListView, Xdp};
/// use linkwire::LinkXdp;
///
/// // A program with the number 9, which flags attach.
/// let mut bytes = vec![0; 16];
/// bytes.extend(b"\x14\0\x2b\0\x08\0\x04\0\x09\0\0\0\x08\0\x03\0\x02\0\0\0");
/// let xdp: ListView<'_, LinkXdp> = LinkView::new(&bytes)?.get(Xdp)?.unwrap();
/// assert_eq!(xdp.get((link_xdp::ProgId, link_xdp::Fd))?, (Some(9), None));
/// assert!(matches!(xdp.iter().last(), Some(Ok(link_xdp::Member::Flags(2)))));
/// assert_eq!(xdp.attributes().count(), 2);
/// assert_eq!(format!("{xdp:?}"), "[ProgId(9), Flags(2)]");
/// # Ok::<(), linkwire::DecodeError>(())
/// ```
pub struct ListView<'a, P> {
    list: &'a [u8],
    place: PhantomData<fn() -> P>,
}

impl<P> Clone for ListView<'_, P> {
    fn clone(&self) -> Self {
        *self
    }
}

impl<P> Copy for ListView<'_, P> {}

impl<'a, P: Place<'a>> fmt::Debug for ListView<'a, P> {
    fn fmt(&self, f: &mut fmt::Formatter<'_>) -> fmt::Result {
        let mut list = f.debug_list();
        for member in self.iter() {
            match member {
                Ok(member) => list.entry(&member),
                Err(fault) => list.entry(&fault),
            };
        }
        list.finish()
    }
}

impl<'a, P> ListView<'a, P> {
    /// The list that the payload is.
    #[inline]
    fn of(list: &'a [u8]) -> Self {
        ListView { list, place: PhantomData }
    }

    /// The attributes as they are, those that are dropped too.
    ///
    /// [`ListView`] has an example.
    #[must_use]
    pub fn attributes(&self) -> Attributes<'a> {
        Attributes::of_list(self.list)
    }
}

impl<'a, P: Place<'a>> ListView<'a, P> {
    /// The value of a key, or those of a tuple of up to eight keys in one pass: that of the last attribute of its
    /// number, or `None` where there is none or it is another variant.
    ///
    /// In a message that [`LinkView::new`] checked it is the value that `LinkMessage::parse` gives under that variant.
    ///
    /// # Errors
    ///
    /// Where the message was not checked, the fault of the frames, or of a value that is asked for.
    ///
    /// [`ListView`] has an example.
    #[inline]
    pub fn get<K: Keys<'a, Place = P>>(&self, keys: K) -> Result<K::Values, DecodeError> {
        keys.of_list(self.list)
    }

    /// The attributes, front to back.
    ///
    /// [`ListView`] has an example.
    #[must_use]
    pub fn iter(&self) -> Members<'a, P> {
        Members::of(BorrowedAttributes { family: AddressFamily::Unspec, frames: P::frames(self.list) })
    }
}

impl<'a, P: Place<'a>> IntoIterator for &ListView<'a, P> {
    type Item = Result<P::Member, DecodeError>;
    type IntoIter = Members<'a, P>;

    fn into_iter(self) -> Members<'a, P> {
        self.iter()
    }
}

impl<'a, P: Place<'a>> IntoIterator for ListView<'a, P> {
    type Item = Result<P::Member, DecodeError>;
    type IntoIter = Members<'a, P>;

    fn into_iter(self) -> Members<'a, P> {
        self.iter()
    }
}

/// The attributes of a view, front to back. Where the view was not checked a fault comes in the place of its attribute.
///
/// [`ListView`] has an example.
pub struct Members<'a, P> {
    left: BorrowedAttributes<'a>,
    place: PhantomData<fn() -> P>,
}

impl<'a, P> Members<'a, P> {
    #[inline]
    fn of(left: BorrowedAttributes<'a>) -> Self {
        Members { left, place: PhantomData }
    }
}

impl<P> Clone for Members<'_, P> {
    fn clone(&self) -> Self {
        Members::of(self.left.clone())
    }
}

impl<P> fmt::Debug for Members<'_, P> {
    fn fmt(&self, f: &mut fmt::Formatter<'_>) -> fmt::Result {
        f.debug_struct("Members").field("family", &self.left.family).field("frames", &self.left.frames).finish()
    }
}

impl<'a, P: Place<'a>> Iterator for Members<'a, P> {
    type Item = Result<P::Member, DecodeError>;

    #[inline]
    fn next(&mut self) -> Option<Self::Item> {
        P::next(&mut self.left)
    }
}

impl<'a, P: Place<'a>> FusedIterator for Members<'a, P> {}

mod keys {
    use super::read::Nest;
    use super::{Key, ListView, Place, Values, WirelessEventView};
    use crate::link_msg::numbers;
    use crate::link_view::LinkView;
    use crate::link_view::attributes::{BorrowedAttributes, borrow_frame};
    use crate::link_view::borrowed::BorrowedAttribute;
    use crate::link_view::entries::{borrow_entry, entries_in, next_entry};
    use crate::link_view::sought::Sought;
    use crate::nla_wire::NlasIterator;
    use crate::rattle::net::{Ipv4Addr, Ipv6Addr};
    use crate::{AddressFamily, Attribute, DecodeError, LinkAttribute, typed};

    include!("generated/keys.rs");
}

pub use keys::*;
