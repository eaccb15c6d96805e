//! The messages in which Linux describes network interfaces, `RTM_NEWLINK` of `rtnetlink(7)`: read into typed values,
//! checked, changed, written, and compared. A message is the header of 16 bytes (`struct ifinfomsg` of
//! `linux/rtnetlink.h`) and the attributes after it (`linux/if_link.h`), as they stand after the netlink header;
//! [`LinkMessage`] is its value. Bytes are read whole, or refused with the first fault. Each message that can be
//! written has one **canonical encoding**, to which every other spelling of it is brought. Names and types are those of
//! netlink-packet-route 0.34.0, module `link`: the page [`moving`] has what is here, and what otherwise.
//!
//! The crate has no dependency and no `unsafe`; without the feature `std` it needs `alloc` alone. It also runs on
//! 32-bit and on big-endian machines: the page [`moving`] lists those that it was tested on.
//!
//! **Nothing in this crate is proved.** Most of it comes from sources in Rattle, which is Rust with contracts that a
//! prover checks. There they are proved for 64-bit little-endian machines. A script erases the contracts and so makes
//! this crate. Tests compare its answers with those of the proved programs. The proof does not cover rustc, the script,
//! what stands for Rattle's std, and what is written by hand: [`request`], the types of [`typed`], [`Writer`],
//! [`attributes()`], [`route_link!`], the traits of netlink-packet-core, and parts of [`info`] and of [`view`].
//!
//! # Three programs
//!
//! They run as they stand, as examples of this crate: `cargo run --example list`. `examples/socket` opens the socket by
//! two calls of the C library; a program that has netlink-sys takes its own.
//!
//! To **list** the interfaces:
//!
#![doc = concat!("```ignore\n", include_str!("../examples/list.rs"), "```")]
//!
//! To **watch** them:
//!
#![doc = concat!("```ignore\n", include_str!("../examples/watch.rs"), "```")]
//!
//! To **change** one:
//!
#![doc = concat!("```ignore\n", include_str!("../examples/change.rs"), "```")]
//!
//! # Reading
//!
//! ```
//! use linkwire::{LinkAttribute, LinkFlags, LinkMessage};
//!
//! // Interface 7, up: the name "lo" without its NUL, and an MTU.
//! let bytes = b"\0\x09\x01\0\x07\0\0\0\x01\0\0\0\0\0\0\0\x06\0\x03\0lo\0\0\x08\0\x04\0\xdc\x05\0\0";
//! let message = LinkMessage::parse(bytes)?;
//! assert_eq!(message.header.index, 7);
//! assert!(message.header.flags.contains(LinkFlags::Up));
//! for attribute in &message.attributes {
//!     match attribute {
//!         LinkAttribute::IfName(name) => assert_eq!(name, "lo"),
//!         LinkAttribute::Mtu(mtu) => assert_eq!(*mtu, 1500),
//!         other => println!("{other:?}"),
//!     }
//! }
//! # Ok::<(), linkwire::DecodeError>(())
//! ```
//!
//! Without memory, and without values of what is not asked for: [`view`] by typed keys, [`attributes`] by numbers.
//!
//! # Changing and writing
//!
//! ```
//! use linkwire::{LinkAttribute, LinkMessage};
//!
//! # let bytes = b"\0\x09\x01\0\x07\0\0\0\x01\0\0\0\0\0\0\0\x06\0\x03\0lo\0\0\x08\0\x04\0\xdc\x05\0\0";
//! let mut message = LinkMessage::parse(bytes)?;
//! for attribute in &mut message.attributes {
//!     if let LinkAttribute::Mtu(mtu) = attribute {
//!         *mtu = 9000;
//!     }
//! }
//! message.attributes.push(LinkAttribute::IfAlias("loopback".to_string()));
//! let written = message.to_vec()?;
//! assert_eq!(LinkMessage::parse(&written)?, message);
//! # Ok::<(), Box<dyn std::error::Error>>(())
//! ```
//!
//! [`to_vec`](LinkMessage::to_vec) refuses what the format can not hold, such as a name of 70,000 bytes. [`Writer`]
//! writes attributes into a buffer, without memory.
//!
//! # The data of a kind of interface
//!
//! ```
//! use linkwire::typed::{InfoData, InfoKind, InfoVlan, LinkInfos};
//! use linkwire::{LinkAttribute, LinkInfo, LinkMessage};
//!
//! let vlan = InfoData::Vlan(vec![InfoVlan::Id(100)]);
//! let info = vec![LinkInfo::from(InfoKind::Vlan), LinkInfo::from(vlan.clone())];
//! assert_eq!(info.info_data(), Some(Ok(vlan)));
//! let mut message = LinkMessage::default();
//! message.attributes.push(LinkAttribute::LinkInfo(info));
//! ```
//!
//! [`typed`] has an enum of each kind of which it knows the data. [`info`] has them by the names of attributes, and an
//! example of a vlan, a bridge, a bond and a vxlan each.
//!
//! # A request
//!
//! ```
//! use linkwire::request;
//!
//! let packet = request::mtu("eth0", 9000)?.packet(1)?;
//! assert_eq!(packet.len(), 52);
//! assert!(request::name(7, "a name above fifteen").is_err());
//! # Ok::<(), request::RequestError>(())
//! ```
//!
//! [`request`] has what managers send: with type, flags and message. It changes interfaces by `RTM_NEWLINK`, as `ip`
//! does; [`Request::new`](request::Request::new) takes any type, such as `RTM_SETLINK`. [`route_link!`] makes an enum
//! of messages for netlink-packet-core, by which netlink-sys and netlink-proto send and receive them.
//!
//! # A key to store
//!
//! Two messages are equal if and only if their canonical encodings are. The order of attributes counts: the same
//! attributes in another order are another message. Keep [`CANONICAL_FORM`] beside what is stored, and compare only
//! encodings of one such number. Do not compare encodings of machines with different byte orders either, because
//! numbers are in host order, as the kernel has them: [`BYTE_ORDER`] names it.
//!
//! ```
//! use linkwire::{canonical, same_message, CANONICAL_FORM};
//! use std::collections::HashMap;
//!
//! // Two spellings of one message: the second byte of the header is unused, and the NUL of a name may be missing.
//! let one = b"\0\x09\x01\0\x07\0\0\0\0\0\0\0\0\0\0\0\x06\0\x03\0lo\0\0";
//! let other = b"\0\0\x01\0\x07\0\0\0\0\0\0\0\0\0\0\0\x07\0\x03\0lo\0\0";
//! let mut seen = HashMap::new();
//! seen.insert((CANONICAL_FORM, canonical(one)?), "first");
//! assert!(seen.contains_key(&(CANONICAL_FORM, canonical(other)?)));
//! assert!(same_message(one, other)?);
//! # Ok::<(), linkwire::CanonError>(())
//! ```
//!
//! # A fault, and where it is
//!
//! A [`DecodeError`] has a cause and the name of the attribute. The offset comes of the bytes, by [`fault_at`], and the
//! numbers of the attributes that lead there by [`LinkMessage::fault_path`].
//!
//! ```
//! use linkwire::{fault_at, Cause, LinkMessage};
//!
//! // An MTU of three bytes, after a name.
//! let bytes = b"\0\0\x01\0\x07\0\0\0\0\0\0\0\0\0\0\0\x07\0\x03\0lo\0\0\x07\0\x04\0\xdc\x05\0\0";
//! let (fault, at) = fault_at(bytes).unwrap();
//! assert_eq!(at, 24);
//! assert_eq!(fault.cause, Cause::WrongLength { got: 3, want: 4 });
//! assert_eq!(fault.place, "IFLA_MTU");
//! assert_eq!(LinkMessage::fault_path(bytes).unwrap().numbers(), [4]);
//! assert_eq!(LinkMessage::parse(bytes), Err(fault));
//! println!("{fault}, {at} bytes into the message");
//! ```
//!
//! # A message with an attribute that is refused
//!
//! [`LinkMessage::parse_lenient`] keeps it whole, as `Other`, and [`LinkMessage::refusals`] tells which ones it kept
//! so. [`canonical_lenient`] and [`state_lenient`] go with it; keep [`LENIENT_FORM`] beside what is stored of them.
//!
//! ```
//! use linkwire::{Cause, LinkMessage, canonical_lenient};
//!
//! // An alias with a byte of Latin-1, and a name.
//! let bytes = b"\0\0\x01\0\x07\0\0\0\0\0\0\0\0\0\0\0\x05\0\x14\0\xe9\0\0\0\x07\0\x03\0lo\0\0";
//! assert!(LinkMessage::parse(bytes).is_err());
//! assert_eq!(LinkMessage::parse_lenient(bytes)?.attributes.len(), 2);
//! for refusal in LinkMessage::refusals(bytes)? {
//!     assert_eq!((refusal.offset(), refusal.error().cause), (16, Cause::NotUtf8));
//!     assert_eq!(refusal.attribute(), Some((20, b"\xe9".as_slice())));
//! }
//! assert_eq!(canonical_lenient(bytes)?, bytes);
//! # Ok::<(), linkwire::CanonError>(())
//! ```
#![forbid(unsafe_code)]
#![warn(missing_docs)]
#![cfg_attr(not(feature = "std"), no_std)]
#![allow(non_upper_case_globals)]
// forms of the sources that this is made from
#![allow(clippy::manual_map, clippy::match_like_matches_macro, clippy::needless_range_loop)]
#![allow(clippy::manual_flatten, clippy::non_canonical_clone_impl, clippy::redundant_closure)]
#![allow(clippy::unnecessary_map_on_constructor)]
#![allow(clippy::single_match, clippy::slow_vector_initialization, clippy::while_let_on_iterator)]

#[cfg(not(any(target_pointer_width = "32", target_pointer_width = "64")))]
compile_error!("linkwire is for targets of 32 and 64 bits");

extern crate alloc;

mod attributes;
mod calls;
mod flags;
pub mod info;
#[macro_use]
mod netlink;
mod packet;
#[path = "generated/rattle/mod.rs"]
mod rattle;
pub mod request;
pub mod typed;
mod values;
pub mod view;
mod writer;

#[path = "generated/link_afspec/mod.rs"]
#[allow(dead_code, unused_imports)]
mod link_afspec;
#[path = "generated/link_info/mod.rs"]
#[allow(dead_code, unused_imports)]
mod link_info;
#[path = "generated/link_msg/mod.rs"]
#[allow(dead_code, unused_imports)]
mod link_msg;
#[path = "generated/link_nest/mod.rs"]
#[allow(dead_code, unused_imports)]
mod link_nest;
#[path = "generated/link_recs/mod.rs"]
#[allow(dead_code, unused_imports)]
mod link_recs;
#[path = "generated/link_state/mod.rs"]
#[allow(dead_code, unused_imports)]
mod link_state;
#[path = "generated/link_vals/mod.rs"]
#[allow(dead_code, unused_imports)]
mod link_vals;
#[path = "generated/link_vf/mod.rs"]
#[allow(dead_code, unused_imports)]
mod link_vf;
#[path = "generated/link_vfrec/mod.rs"]
#[allow(dead_code, unused_imports)]
mod link_vfrec;
#[path = "generated/link_view/mod.rs"]
#[allow(dead_code, unused_imports)]
mod link_view;
#[path = "generated/nla_wire/mod.rs"]
#[allow(dead_code, unused_imports)]
mod nla_wire;

pub use link_msg::*;
pub use link_state::*;
pub use link_view::*;

pub use attributes::{Attribute, Attributes, attributes};
pub use calls::{GROWTH, canonical_into, canonical_lenient_into, check, fault_at};
pub use flags::{Iter, IterNames};
pub use link_msg::header::HEADER_SIZE;
pub use packet::{
    Emitable, Nla, NlaBuffer, NlasIterator, Parseable, ParseableParametrized, emit_i32, emit_u16, emit_u32, emit_u64,
};
pub use writer::Writer;

/// The order of the bytes of numbers on this machine: `"little"` or `"big"`. The kernel's messages have numbers in it,
/// and so do canonical encodings and state encodings. Keys of machines with different orders are not to be compared:
/// keep it beside keys that leave the machine.
///
/// ```
/// assert_eq!(linkwire::BYTE_ORDER == "little", 1u16.to_ne_bytes() == [1, 0]);
/// ```
pub const BYTE_ORDER: &str = if cfg!(target_endian = "little") { "little" } else { "big" };

/// The names of netlink-packet-route's module `link`. Each that the root of the crate has too is the same type.
pub mod link {
    #[doc(no_inline)]
    pub use crate::link_msg::*;
    // the kept forms, and not the types of these names
    #[doc(no_inline)]
    pub use crate::link_msg::{AfSpecBridge, LinkProtoInfoBridge};
    #[doc(no_inline)]
    pub use crate::typed::BridgeIdBuffer;
    #[doc(no_inline)]
    pub use crate::typed::kinds::*;
    #[doc(no_inline)]
    pub use crate::typed::places::*;
}

/// The kernel's numbers of a message's attributes: `IFLA_..` of linux/if_link.h.
pub mod numbers {
    pub use crate::link_msg::numbers::*;
}

#[cfg(doc)]
#[doc = include_str!("../MOVING.md")]
pub mod moving {}
