//! Linkwire's messages in the envelope of netlink-packet-core.
//!
//! ```
//! use linkwire::request;
//! use linkwire_netlink::RouteLink;
//! use netlink_packet_core::{NetlinkMessage, NetlinkPayload};
//!
//! let mut packet = RouteLink::packet(request::mtu(7, 1400)?)?;
//! packet.finalize();
//! let mut bytes = vec![0; packet.buffer_len()];
//! packet.serialize(&mut bytes);
//! assert_eq!(bytes, request::mtu(7, 1400)?.packet(0)?);
//!
//! match NetlinkMessage::<RouteLink>::deserialize(&bytes)?.payload {
//!     NetlinkPayload::InnerMessage(message) => assert_eq!(message.link().unwrap().header.index, 7),
//!     other => panic!("a message of a link: {other:?}"),
//! }
//! assert!(matches!(RouteLink::parse(17, &[0; 16])?, RouteLink::DelLink(_)));
//! # Ok::<(), Box<dyn std::error::Error>>(())
//! ```
#![forbid(unsafe_code)]
#![deny(missing_docs)]

linkwire::route_link! {
    /// A message of route netlink: one of links by its type, and any other by its bytes.
    pub enum RouteLink of netlink_packet_core
}
