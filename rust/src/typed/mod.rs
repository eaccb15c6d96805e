//! The data of kinds of interfaces and ports as types: an enum of each place, with a variant of each attribute.
//!
//! [`LinkInfo`](crate::LinkInfo) keeps data as bytes. [`LinkInfos`] gives those of a list as [`InfoData`] or
//! [`InfoPortData`], and `LinkInfo::from` makes an attribute of them; [`parse`] and [`emit`] do so for the attributes
//! of any place. Names of types and variants are those of netlink-packet-route, where it has them, and else those of
//! the kernel's constants.
//!
//! What a type would not give back byte for byte is kept as `Other`: a number without a row, a payload of another
//! length, a flag bit of the kind that the kernel does not set. So what was read is written as it was, but for a text
//! without a NUL at its end.
//!
//! ```
//! use linkwire::typed::{BondMode, InfoBond, InfoData, InfoKind, LinkInfos};
//! use linkwire::LinkInfo;
//!
//! let data = InfoData::Bond(vec![InfoBond::Mode(BondMode::Ieee8023Ad), InfoBond::MiiMon(100)]);
//! let list = vec![LinkInfo::from(InfoKind::Bond), LinkInfo::from(data.clone())];
//! assert_eq!(list.info_kind(), Some(InfoKind::Bond));
//! assert_eq!(list.info_data(), Some(Ok(data)));
//! ```
//!
//! # Flags
//!
//! ```
//! use linkwire::typed::VlanFlags;
//! let mut flags = VlanFlags::ReorderHdr | VlanFlags::Gvrp;
//! assert_eq!((flags.bits(), flags), (3, VlanFlags::ReorderHdr.union(VlanFlags::Gvrp)));
//! flags.insert(VlanFlags::Mvrp);
//! flags.remove(VlanFlags::Gvrp);
//! assert!(flags.contains(VlanFlags::Mvrp) && !flags.is_empty() && flags != VlanFlags::all());
//! // a bit without a name is kept
//! let newer = VlanFlags::from_bits_retain(0x81);
//! assert_eq!(format!("{newer:?}"), "VlanFlags(ReorderHdr | 0x80)");
//! assert_eq!(VlanFlags::from_bits_truncate(0x81) & newer, VlanFlags::ReorderHdr);
//! assert_eq!(VlanFlags::empty(), VlanFlags::default());
//! ```

#[macro_use]
mod macros;
pub(crate) mod kinds;
pub(crate) mod parts;
#[path = "../generated/places.rs"]
pub(crate) mod places;

use crate::link_info::Row;
use crate::nla_wire::{DecodeError, DefaultNla, NLA_HEADER_SIZE, NlasIterator};
use alloc::vec::Vec;

pub use kinds::*;
pub use parts::BridgeIdBuffer;
pub use places::*;

/// An attribute of a place, as a type. What is not listed, or would not come back, is its variant `Other`.
pub trait Typed: Sized {
    /// The rows of the place.
    #[doc(hidden)]
    const ROWS: &'static [Row];
    #[doc(hidden)]
    fn other(frame: DefaultNla) -> Self;
    #[doc(hidden)]
    fn kept(&self) -> Option<&DefaultNla>;
    /// The attribute of this kind, unless it would be `Other`.
    #[doc(hidden)]
    fn read(kind: u16, payload: &[u8]) -> Option<Self>;
    /// Adds the whole attribute.
    #[doc(hidden)]
    fn push(&self, out: &mut Vec<u8>);
}

/// The attributes of these bytes, by the place that the type is of.
///
/// # Errors
///
/// Refuses bytes that are no whole attributes: the first fault.
///
/// ```
/// use linkwire::typed::{self, InfoVlan};
/// let list: Vec<InfoVlan> = typed::parse(&[6, 0, 1, 0, 10, 0, 0, 0])?;
/// assert_eq!(list, [InfoVlan::Id(10)]);
/// # Ok::<(), linkwire::DecodeError>(())
/// ```
pub fn parse<T: Typed>(bytes: &[u8]) -> Result<Vec<T>, DecodeError> {
    // most attributes have eight bytes
    let mut list = Vec::with_capacity(MOST_AT_ONCE.min(bytes.len() / 8));
    for frame in NlasIterator::new(bytes) {
        let frame = frame?;
        list.push(of_frame(frame.kind_with_flags(), frame.value()));
    }
    Ok(list)
}

/// For how many attributes there is room before any is read.
const MOST_AT_ONCE: usize = 64;

/// The attribute of a kind and a payload.
pub(crate) fn of_frame<T: Typed>(kind: u16, payload: &[u8]) -> T {
    T::read(kind, payload).unwrap_or_else(|| T::other(DefaultNla::new(kind, payload.to_vec())))
}

/// The encoding of attributes.
///
/// # Panics
///
/// Where a value does not fit: an attribute holds at most 65531 bytes.
///
/// ```
/// use linkwire::typed::{self, InfoVlan};
/// assert_eq!(typed::emit(&[InfoVlan::Id(10)]), [6, 0, 1, 0, 10, 0, 0, 0]);
/// ```
pub fn emit<T: Typed>(list: &[T]) -> Vec<u8> {
    let mut out = Vec::with_capacity(12 * list.len());
    list.iter().for_each(|one| one.push(&mut out));
    out
}

/// The payload that an attribute is written with.
pub(crate) fn payload<T: Typed>(one: &T) -> Vec<u8> {
    let mut out = Vec::new();
    one.push(&mut out);
    let len = usize::from(u16::from_ne_bytes([out[0], out[1]]));
    out.truncate(len);
    out.drain(..NLA_HEADER_SIZE);
    out
}
