//! What kinds of interfaces say of themselves: the data of `IFLA_LINKINFO`, read and made by the names of attributes.
//!
//! [`LinkInfo`] keeps these data as bytes. [`Info`] has them by kind and name; names and values are those of the
//! kernel's `rt_link.yaml`, or of `linux/if_link.h` in its style. Each kind of [`KINDS`] has a [`Place`], whose rows
//! say of each attribute its number, its name, and how its payload is spelled; another kind has no rows, and its data
//! are kept. [`Fields`] goes over any list of attributes by the rows of a place, those of ports and of address families
//! too. A row with [`Style::Each`] has an attribute for each value of a list, as the VLANs of a port of a bridge.
//! [`typed`](crate::typed) has the same data as enums.
//!
//! If a list repeats its kind or its data, [`Info::of`] takes the first of each. The kernel,
//! [`LinkInfos`](crate::typed::LinkInfos) and [`view`](crate::view) take the last.
//!
//! The messages below are of Linux 6.12: what it dumped, of which the header, the name and `IFLA_LINKINFO` are shown,
//! and what `ip` sent to it.
//!
//! # A vlan
//!
//! ```
//! use linkwire::info::Info;
//! use linkwire::{canonical, LinkAttribute, LinkMessage};
//!
//! # fn bytes(digits: &str) -> Vec<u8> {
//! #     let digits: Vec<u8> = digits.chars().filter_map(|it| Some(it.to_digit(16)? as u8)).collect();
//! #     digits.chunks(2).map(|it| it[0] * 16 + it[1]).collect()
//! # }
//! let dumped = bytes(
//!     "0000 0100 3e000000 43100100 00000000  0d00 0300 76657468302e313000 000000
//!      3000 1200  0900 0100 766c616e00 000000  2000 0200
//!      0600 0500 8100 0000  0600 0100 0a00 0000  0c00 0200 06000000 ffffffff",
//! );
//! let message = LinkMessage::parse(&dumped)?;
//! for attribute in &message.attributes {
//!     if let LinkAttribute::LinkInfo(list) = attribute {
//!         let vlan = Info::of(list)?;
//!         assert_eq!(vlan.kind(), "vlan");
//!         assert_eq!(vlan.u16("id"), Some(10));
//!         assert_eq!(vlan.named("protocol"), Some("8021q"));
//!         // a record: which flags are on, and which of them are meant
//!         assert_eq!(vlan.bytes("flag"), Some(&[6, 0, 0, 0, 255, 255, 255, 255][..]));
//!     }
//! }
//!
//! // ip link add link veth0 name veth0.10 type vlan id 10 reorder_hdr off gvrp on loose_binding on
//! let mut vlan = Info::new("vlan")?;
//! vlan.set("id", 10)?;
//! vlan.set("flag", &[6, 0, 0, 0, 7, 0, 0, 0])?;
//! let mut request = LinkMessage::default();
//! request.attributes = vec![
//!     LinkAttribute::Link(46),
//!     LinkAttribute::IfName("veth0.10".to_string()),
//!     LinkAttribute::LinkInfo(vlan.list()?),
//! ];
//! let sent = bytes(
//!     "0000 0000 00000000 00000000 00000000  0800 0500 2e000000  0d00 0300 76657468302e313000 000000
//!      2400 1200  0800 0100 766c616e  1800 0200  0600 0100 0a00 0000  0c00 0200 06000000 07000000",
//! );
//! assert_eq!(request.to_vec()?, canonical(&sent)?);
//! # Ok::<(), Box<dyn std::error::Error>>(())
//! ```
//!
//! # A bridge
//!
//! ```
//! use linkwire::info::{Info, InfoError};
//! use linkwire::{canonical, LinkAttribute, LinkMessage};
//!
//! # fn bytes(digits: &str) -> Vec<u8> {
//! #     let digits: Vec<u8> = digits.chars().filter_map(|it| Some(it.to_digit(16)? as u8)).collect();
//! #     digits.chunks(2).map(|it| it[0] * 16 + it[1]).collect()
//! # }
//! # const DUMPED: &str = "00000100360000004310010000000000
//! #     0800030062723100dc0112000b0001006272696467650000cc0102000c00100000000000000000000c0011000000000000000000
//! #     0c00120000000000000000000c0013006771000000000000080001009001000008000200c800000008000300d007000008000400
//! #     3075000008000500000000000600060000800000050007000000000006000900080000000c000b008000dee9c35e65500c000a00
//! #     8000dee9c35e655006000c000000000008000d000000000005000e000000000005000f00000000000a0014000180c20000000000
//! #     0c002e000000000007000000080030000200000008003100000000000600080088a8000006002700010000000500290000000000
//! #     05002d0000000000050016000100000005001700010000000500180000000000050019000000000005002a000000000008001a00
//! #     1000000008001b000010000008001c000200000008001d000200000005002b000200000020002f8008000100000000000c000300
//! #     9a60000000000000080002003000000005002c00010000000c001e0064000000000000000c001f0090650000000000000c002000
//! #     9c630000000000000c002100d4300000000000000c002200e8030000000000000c002300340c0000000000000500240001000000
//! #     05002500000000000500260000000000";
//! let message = LinkMessage::parse(&bytes(DUMPED))?;
//! for attribute in &message.attributes {
//!     if let LinkAttribute::LinkInfo(list) = attribute {
//!         let bridge = Info::of(list)?;
//!         assert_eq!(bridge.kind(), "bridge");
//!         assert_eq!(bridge.u32("forward-delay"), Some(400));
//!         assert_eq!(bridge.mac("group-addr"), Some([1, 0x80, 0xc2, 0, 0, 0]));
//!         assert_eq!(bridge.named("vlan-protocol"), Some("8021ad"));
//!         // a nest: which querier is known
//!         let querier = bridge.value("mcast-querier-state").and_then(|it| it.fields()).unwrap();
//!         let names: Result<Vec<_>, _> = querier.map(|field| field.map(|it| it.name())).collect();
//!         assert_eq!(names?, [Some("ip-address"), Some("ip-other-timer"), Some("ip-port")]);
//!     }
//! }
//!
//! // ip link add br1 type bridge forward_delay 400 group_fwd_mask 8 nf_call_iptables 1 vlan_protocol 802.1ad
//! let mut bridge = Info::new("bridge")?;
//! bridge.set("forward-delay", 400)?;
//! bridge.set("group-fwd-mask", 8)?;
//! bridge.set("nf-call-iptables", true)?;
//! bridge.set("vlan-protocol", "8021ad")?;
//! assert_eq!(bridge.set("forward_delay", 400), Err(InfoError::UnknownName));
//! assert_eq!(bridge.set("group-fwd-mask", 65536), Err(InfoError::NotHeld));
//! let mut request = LinkMessage::default();
//! request.attributes =
//!     vec![LinkAttribute::IfName("br1".to_string()), LinkAttribute::LinkInfo(bridge.list()?)];
//! let sent = bytes(
//!     "0000 0000 00000000 00000000 00000000  0800 0300 62723100  3400 1200  0a00 0100 627269646765 0000  2400 0200
//!      0800 0100 90010000  0600 0900 0800 0000  0500 2400 01 000000  0600 0800 88a8 0000",
//! );
//! assert_eq!(request.to_vec()?, canonical(&sent)?);
//! # Ok::<(), Box<dyn std::error::Error>>(())
//! ```
//!
//! # A bond
//!
//! ```
//! use linkwire::info::Info;
//! use linkwire::{canonical, LinkAttribute, LinkMessage};
//!
//! # fn bytes(digits: &str) -> Vec<u8> {
//! #     let digits: Vec<u8> = digits.chars().filter_map(|it| Some(it.to_digit(16)? as u8)).collect();
//! #     digits.chunks(2).map(|it| it[0] * 16 + it[1]).collect()
//! # }
//! # const DUMPED: &str = "000001004e0000004314010000000000
//! #     0a000300626f6e64420000002001120009000100626f6e6400000000100102000500010004000000080003006400000008000400
//! #     00000000080005000000000008001c000000000005000600010000000800070000000000080009000000000008000a0000000000
//! #     05000c000000000005000d000000000005000e000100000008000f00010000000500100001000000050011000000000008001200
//! #     000000000800130001000000080014000100000005001d00010000000500150001000000050016000000000005001b0001000000
//! #     05001e0002000000050020000100000006001800ffff000006001900000000000a001a000000000000aa00003000170006000100
//! #     010000000600020001000000060003000f00000006000400010000000a0005000000000000000000";
//! let message = LinkMessage::parse(&bytes(DUMPED))?;
//! for attribute in &message.attributes {
//!     if let LinkAttribute::LinkInfo(list) = attribute {
//!         let bond = Info::of(list)?;
//!         assert_eq!(bond.kind(), "bond");
//!         assert_eq!((bond.u8("mode"), bond.named("mode")), (Some(4), Some("802.3ad")));
//!         assert_eq!(bond.u32("miimon"), Some(100));
//!         assert_eq!(bond.u16("ad-actor-sys-prio"), Some(65535));
//!         assert_eq!(bond.mac("ad-actor-system"), Some([0, 0, 0, 0, 0, 0xaa]));
//!         // it has no such attribute: the bond has no primary port
//!         assert_eq!(bond.u32("primary"), None);
//!     }
//! }
//!
//! // ip link add bondB type bond mode 802.3ad lacp_rate fast \
//! //     ad_actor_system 00:00:00:00:00:AA xmit_hash_policy layer3+4
//! let mut bond = Info::new("bond")?;
//! bond.set("mode", "802.3ad")?;
//! bond.set("ad-lacp-rate", "fast")?;
//! bond.set("ad-actor-system", [0, 0, 0, 0, 0, 0xaa])?;
//! bond.set("xmit-hash-policy", "layer3+4")?;
//! let mut request = LinkMessage::default();
//! request.attributes =
//!     vec![LinkAttribute::IfName("bondB".to_string()), LinkAttribute::LinkInfo(bond.list()?)];
//! let sent = bytes(
//!     "0000 0000 00000000 00000000 00000000  0a00 0300 626f6e644200 0000  3400 1200  0800 0100 626f6e64  2800 0200
//!      0500 0100 04 000000  0500 1500 01 000000  0a00 1a00 0000000000aa 0000  0500 0e00 01 000000",
//! );
//! assert_eq!(request.to_vec()?, canonical(&sent)?);
//! # Ok::<(), Box<dyn std::error::Error>>(())
//! ```
//!
//! # A vxlan
//!
//! ```
//! use linkwire::info::Info;
//! use linkwire::{canonical, LinkAttribute, LinkMessage};
//! use std::net::Ipv4Addr;
//!
//! # fn bytes(digits: &str) -> Vec<u8> {
//! #     let digits: Vec<u8> = digits.chars().filter_map(|it| Some(it.to_digit(16)? as u8)).collect();
//! #     digits.chunks(2).map(|it| it[0] * 16 + it[1]).collect()
//! # }
//! # const DUMPED: &str = "00000100760000000310000000000000
//! #     0800030076783000dc0012000a00010076786c616e000000cc000200080001002a00000008000200ef010101080003002e000000
//! #     050005000500000005001c0000000000050006000000000005001d000000000008001a0000000000080020000000000005000700
//! #     0100000005000b000000000005000c000000000005000d000000000005000e000000000005001900000000000800080064000000
//! #     080009000500000006000f0012b50000050012000100000005001300000000000500140000000000050015000000000005001600
//! #     0000000005001f000100000008000a0000000000";
//! let message = LinkMessage::parse(&bytes(DUMPED))?;
//! for attribute in &message.attributes {
//!     if let LinkAttribute::LinkInfo(list) = attribute {
//!         let vxlan = Info::of(list)?;
//!         assert_eq!(vxlan.kind(), "vxlan");
//!         assert_eq!(vxlan.u32("id"), Some(42));
//!         assert_eq!(vxlan.ipv4("group"), Some(Ipv4Addr::new(239, 1, 1, 1)));
//!         assert_eq!(vxlan.u16("port"), Some(4789));
//!         assert!(!vxlan.flag("gbp"));
//!     }
//! }
//!
//! // ip link add vx0 type vxlan id 42 dev veth0 group 239.1.1.1 dstport 4789 ttl 5 ageing 100 maxaddress 5
//! let mut vxlan = Info::new("vxlan")?;
//! vxlan.set("link", 46)?;
//! vxlan.set("ttl", 5)?;
//! vxlan.set("ageing", 100)?;
//! vxlan.set("limit", 5)?;
//! vxlan.set("id", 42)?;
//! vxlan.set("group", Ipv4Addr::new(239, 1, 1, 1))?;
//! vxlan.set("learning", true)?;
//! vxlan.set("port", 4789)?;
//! let mut request = LinkMessage::default();
//! request.attributes =
//!     vec![LinkAttribute::IfName("vx0".to_string()), LinkAttribute::LinkInfo(vxlan.list()?)];
//! let sent = bytes(
//!     "0000 0000 00000000 00000000 00000000  0800 0300 76783000  5400 1200  0900 0100 76786c616e 000000  4400 0200
//!      0800 0300 2e000000  0500 0500 05 000000  0800 0800 64000000  0800 0900 05000000  0800 0100 2a000000
//!      0800 0200 ef010101  0500 0700 01 000000  0600 0f00 12b5 0000",
//! );
//! assert_eq!(request.to_vec()?, canonical(&sent)?);
//! # Ok::<(), Box<dyn std::error::Error>>(())
//! ```
//!
//! # Any data
//!
//! ```
//! use linkwire::info::{Fields, Place, Value};
//!
//! // a vlan's data: its id, and an attribute of a number that no row has
//! let data = [6, 0, 1, 0, 10, 0, 0, 0, 5, 0, 99, 0, 7, 0, 0, 0];
//! let rows = Place::of_kind("vlan").map_or(&[][..], Place::rows);
//! let fields = Fields::new(rows, &data).collect::<Result<Vec<_>, _>>()?;
//! assert_eq!((fields[0].name(), fields[0].value()), (Some("id"), Value::Unsigned(10)));
//! assert_eq!((fields[1].name(), fields[1].value()), (None, Value::Bytes(&[7])));
//! assert_eq!(fields[1].kind(), 99);
//! # Ok::<(), linkwire::DecodeError>(())
//! ```

use crate::LinkInfo;
use crate::link_info::read::read_plain;
use crate::nla_wire::NlasIterator;
use crate::rattle::net::{Ipv4Addr, Ipv6Addr};
use alloc::string::String;
use alloc::vec::Vec;

pub use crate::link_info::*;

impl Info {
    /// Sets the attribute of this name to this value, in place of one that it was set to before. A number may be of
    /// any type: what counts is whether the attribute can hold it; a `bool` is 0 or 1. A number that has a name may be
    /// given by it, and a single flag by its own; [`Info::set_flags`] sets several. What holds other values, a record,
    /// an array, a list or a nest, is given by its bytes.
    ///
    /// # Errors
    ///
    /// Refuses a name that no attribute of the kind has with `UnknownName`, and a value that the attribute cannot have
    /// with `NotHeld`. After a refusal all is as it was.
    ///
    /// ```
    /// use linkwire::info::{Info, InfoError, Value};
    /// let mut vxlan = Info::new("vxlan")?;
    /// vxlan.set("id", 100u16)?;
    /// vxlan.set("local6", std::net::Ipv6Addr::LOCALHOST)?;
    /// vxlan.set("gbp", Value::Flag)?;
    /// vxlan.set("df", "inherit")?;
    /// assert_eq!(vxlan.set("ttl", 256), Err(InfoError::NotHeld));
    /// assert_eq!(vxlan.set("ttl", -1), Err(InfoError::NotHeld));
    /// assert_eq!(vxlan.u32("id"), Some(100));
    /// # Ok::<(), InfoError>(())
    /// ```
    pub fn set<'v>(&mut self, name: &str, value: impl Into<Value<'v>>) -> Result<(), InfoError> {
        let value = value.into();
        match (self.set_value(name, value), of_other_sign(value)) {
            (Err(InfoError::NotHeld), Some(value)) => self.set_value(name, value),
            (answer, _) => answer,
        }
    }

    /// The number that this attribute was set to, if it was set to one of this type.
    ///
    /// [`Info::u32`] has an example.
    #[must_use]
    pub fn u8(&self, name: &str) -> Option<u8> {
        self.number(name)
    }

    /// The number that this attribute was set to, if it was set to one of this type.
    ///
    /// [`Info::u32`] has an example.
    #[must_use]
    pub fn u16(&self, name: &str) -> Option<u16> {
        self.number(name)
    }

    /// The number that this attribute was set to, if it was set to one of this type.
    ///
    /// ```
    /// use linkwire::info::Info;
    /// use std::net::Ipv4Addr;
    /// let mut vxlan = Info::new("vxlan")?;
    /// vxlan.set("id", 42)?;
    /// vxlan.set("ttl", 5)?;
    /// vxlan.set("port", 4789)?;
    /// vxlan.set("group", Ipv4Addr::new(239, 1, 1, 1))?;
    /// vxlan.set("df", "inherit")?;
    /// assert_eq!((vxlan.u32("id"), vxlan.u8("ttl"), vxlan.u16("port")), (Some(42), Some(5), Some(4789)));
    /// assert_eq!(vxlan.u64("id"), Some(42));
    /// assert_eq!((vxlan.ipv4("group"), vxlan.ipv6("group")), (Some(Ipv4Addr::new(239, 1, 1, 1)), None));
    /// assert_eq!((vxlan.named("df"), vxlan.flag("gbp")), (Some("inherit"), false));
    /// // none of them is of such a type
    /// assert!(vxlan.text("id").is_none() && vxlan.mac("id").is_none() && vxlan.bytes("id").is_none());
    /// assert_eq!(vxlan.i32("group"), None);
    /// # Ok::<(), linkwire::info::InfoError>(())
    /// ```
    #[must_use]
    pub fn u32(&self, name: &str) -> Option<u32> {
        self.number(name)
    }

    /// The number that this attribute was set to, if it was set to one.
    ///
    /// [`Info::u32`] has an example.
    #[must_use]
    pub fn u64(&self, name: &str) -> Option<u64> {
        self.number(name)
    }

    /// The number that this attribute was set to, if it was set to one of this type.
    ///
    /// [`Info::u32`] has an example.
    #[must_use]
    pub fn i32(&self, name: &str) -> Option<i32> {
        self.number(name)
    }

    fn number<T: TryFrom<i128>>(&self, name: &str) -> Option<T> {
        T::try_from(number(self.value(name)?)?).ok()
    }

    /// The name of the number that this attribute was set to, if it has one.
    ///
    /// [`Info::u32`] has an example.
    #[must_use]
    pub fn named(&self, name: &str) -> Option<&'static str> {
        let row = self.place()?.rows().iter().find(|row| row.name() == name)?;
        row.style().plain().name_of(self.u64(name)?)
    }

    /// The text that this attribute was set to, without the NUL at its end.
    ///
    /// [`Info::u32`] has an example.
    #[must_use]
    pub fn text(&self, name: &str) -> Option<&str> {
        match self.value(name)? {
            Value::Text(text) => Some(text),
            _ => None,
        }
    }

    /// The hardware address that this attribute was set to.
    ///
    /// [`Info::u32`] has an example.
    #[must_use]
    pub fn mac(&self, name: &str) -> Option<[u8; 6]> {
        match self.value(name)? {
            Value::Mac(address) => Some(address),
            _ => None,
        }
    }

    /// The IPv4 address that this attribute was set to.
    ///
    /// [`Info::u32`] has an example.
    #[must_use]
    pub fn ipv4(&self, name: &str) -> Option<Ipv4Addr> {
        match self.value(name)? {
            Value::Ipv4(address) => Some(address),
            _ => None,
        }
    }

    /// The IPv6 address that this attribute was set to.
    ///
    /// [`Info::u32`] has an example.
    #[must_use]
    pub fn ipv6(&self, name: &str) -> Option<Ipv6Addr> {
        match self.value(name)? {
            Value::Ipv6(address) => Some(address),
            _ => None,
        }
    }

    /// The bytes that this attribute was set to: those of a record, an array, a list or a nest, and those of which no
    /// more is known.
    ///
    /// [`Info::u32`] has an example.
    #[must_use]
    pub fn bytes(&self, name: &str) -> Option<&[u8]> {
        self.value(name)?.bytes()
    }

    /// Whether this attribute, one without a payload, is there.
    ///
    /// [`Info::u32`] has an example.
    #[must_use]
    pub fn flag(&self, name: &str) -> bool {
        self.value(name) == Some(Value::Flag)
    }
}

/// A number as one of the other sign, if it is one.
fn of_other_sign(value: Value<'_>) -> Option<Value<'_>> {
    match value {
        Value::Unsigned(n) => Some(Value::Signed(n.try_into().ok()?)),
        Value::Signed(z) => Some(Value::Unsigned(z.try_into().ok()?)),
        _ => None,
    }
}

fn number(value: Value<'_>) -> Option<i128> {
    match value {
        Value::Unsigned(n) => Some(n.into()),
        Value::Signed(z) => Some(z.into()),
        _ => None,
    }
}

impl TryFrom<&[LinkInfo]> for Info {
    type Error = InfoError;

    fn try_from(list: &[LinkInfo]) -> Result<Info, InfoError> {
        Info::of(list)
    }
}

impl<'a> Value<'a> {
    /// The bytes of what holds other values, or of which no more is known.
    ///
    /// [`Value::members`] and [`Value::fields`] have examples of values that hold others.
    #[must_use]
    pub fn bytes(self) -> Option<&'a [u8]> {
        match self {
            Value::Bytes(bytes) | Value::Record(_, bytes) | Value::Nest(_, bytes) => Some(bytes),
            Value::Array(_, bytes) | Value::List(_, bytes) => Some(bytes),
            _ => None,
        }
    }

    /// The members of a record, in order, each with its value; of another value none.
    ///
    /// ```
    /// use linkwire::info::{Info, Value};
    /// let mut vlan = Info::new("vlan")?;
    /// vlan.set("flag", &[1, 0, 0, 0, 3, 0, 0, 0])?;
    /// let members: Vec<_> = vlan.value("flag").unwrap().members().collect();
    /// assert_eq!((members[0].0.name(), members[0].1), ("flags", Value::Unsigned(1)));
    /// assert_eq!((members[1].0.name(), members[1].1), ("mask", Value::Unsigned(3)));
    /// assert_eq!(members[1].0.plain().names_of(3).collect::<Vec<_>>(), ["reorder-hdr", "gvrp"]);
    /// # Ok::<(), linkwire::info::InfoError>(())
    /// ```
    pub fn members(self) -> impl Iterator<Item = (&'static Member, Value<'a>)> {
        let (members, bytes) = match self {
            Value::Record(members, bytes) => (members, bytes),
            _ => (&[][..], &[][..]),
        };
        let mut at = 0;
        members.iter().map_while(move |member| {
            let start = at;
            at += member.plain().size();
            Some((member, read_plain(member.plain(), bytes.get(start..at)?)))
        })
    }

    /// The values of an array, or of a list of attributes, in order; of another value none.
    ///
    /// ```
    /// use linkwire::info::{Info, Value};
    /// let mut bond = Info::new("bond")?;
    /// bond.set("arp-ip-target", &[8, 0, 0, 0, 10, 0, 0, 1, 8, 0, 1, 0, 10, 0, 0, 2])?;
    /// let targets: Vec<_> = bond.value("arp-ip-target").unwrap().elements().collect();
    /// assert_eq!(targets, [Value::Ipv4([10, 0, 0, 1].into()), Value::Ipv4([10, 0, 0, 2].into())]);
    /// # Ok::<(), linkwire::info::InfoError>(())
    /// ```
    pub fn elements(self) -> impl Iterator<Item = Value<'a>> {
        let (plain, payloads) = match self {
            Value::Array(plain, bytes) => (plain, bytes.chunks_exact(plain.size().max(1)).collect()),
            Value::List(plain, bytes) => (plain, payloads(bytes)),
            _ => (Plain::Octets(0), Vec::new()),
        };
        payloads.into_iter().filter(move |it| it.len() == plain.size()).map(move |it| read_plain(plain, it))
    }

    /// The fields of a nest.
    ///
    /// ```
    /// use linkwire::info::{Info, Value};
    /// let mut bridge = Info::new("bridge")?;
    /// let querier = [8, 0, 1, 0, 10, 0, 0, 1];
    /// bridge.set("mcast-querier-state", &querier)?;
    /// let value = bridge.value("mcast-querier-state").unwrap();
    /// assert_eq!(value.bytes(), Some(&querier[..]));
    /// let first = value.fields().unwrap().next().unwrap()?;
    /// assert_eq!((first.name(), first.value()), (Some("ip-address"), Value::Ipv4([10, 0, 0, 1].into())));
    /// # Ok::<(), Box<dyn std::error::Error>>(())
    /// ```
    #[must_use]
    pub fn fields(self) -> Option<Fields<'a>> {
        match self {
            Value::Nest(place, bytes) => Some(Fields::new(place.rows(), bytes)),
            _ => None,
        }
    }
}

/// The payloads of a list of attributes.
fn payloads(list: &[u8]) -> Vec<&[u8]> {
    NlasIterator::new(list).map_while(|it| Some(it.ok()?.value())).collect()
}

impl Field<'_> {
    /// The name of its attribute, if its number has a row.
    ///
    /// [`Value::fields`] has an example.
    pub fn name(&self) -> Option<&'static str> {
        self.row().map(Row::name)
    }
}

impl Row {
    /// The number of the attribute, as the kernel's constant has it.
    ///
    /// ```
    /// use linkwire::info::{KINDS, Place, Plain, Size, Style};
    /// let vlan = KINDS.iter().find(|row| row.kind() == "vlan").unwrap();
    /// assert_eq!(vlan.place(), Place::Vlan);
    /// let id = vlan.place().rows()[0];
    /// assert_eq!((id.number(), id.name(), id.style()), (1, "id", Style::Plain(Plain::Unsigned(Size::Two))));
    /// ```
    #[must_use]
    pub fn number(&self) -> u16 {
        self.0
    }

    /// Its name.
    ///
    /// [`Row::number`] has an example.
    #[must_use]
    pub fn name(&self) -> &'static str {
        self.1
    }

    /// How its payload is spelled.
    ///
    /// [`Row::number`] has an example.
    #[must_use]
    pub fn style(&self) -> Style {
        self.2
    }
}

impl Member {
    /// Its name.
    ///
    /// [`Value::members`] has an example.
    #[must_use]
    pub fn name(&self) -> &'static str {
        self.0
    }

    /// How it is spelled.
    ///
    /// [`Value::members`] has an example.
    #[must_use]
    pub fn plain(&self) -> Plain {
        self.1
    }
}

impl KindRow {
    /// The kind, as `IFLA_INFO_KIND` or `IFLA_INFO_SLAVE_KIND` has it.
    ///
    /// [`Row::number`] has an example.
    #[must_use]
    pub fn kind(&self) -> &'static str {
        self.0
    }

    /// The place of its data.
    ///
    /// [`Row::number`] has an example.
    #[must_use]
    pub fn place(&self) -> Place {
        self.1
    }
}

impl Plain {
    /// The name of a number, where numbers of this kind have names.
    ///
    /// ```
    /// use linkwire::info::{Place, Style};
    /// let rows = Place::Bond.rows();
    /// match rows[0].style() {
    ///     Style::Plain(mode) => assert_eq!((mode.name_of(4), mode.name_of(99)), (Some("802.3ad"), None)),
    ///     _ => panic!("a number with names"),
    /// }
    /// ```
    #[must_use]
    pub fn name_of(self, number: u64) -> Option<&'static str> {
        match self {
            Plain::Named(_, names) | Plain::BigEndianNamed(_, names) => {
                names.iter().find(|it| it.0 == number).map(|it| it.1)
            }
            _ => None,
        }
    }

    /// The names of the bits that are set in a number, where bits of this kind have names; a bit without one is passed
    /// over.
    ///
    /// [`Value::members`] has an example.
    pub fn names_of(self, number: u64) -> impl Iterator<Item = &'static str> {
        let names = match self {
            Plain::Flags(_, names) | Plain::BigEndianFlags(_, names) => names,
            _ => &[],
        };
        names.iter().filter(move |it| it.0 & number == it.0).map(|it| it.1)
    }
}

/// Values of Rust's own types, each as the variant that has it.
macro_rules! values {
    ($($type:ty => $variant:ident)*) => {$(
        impl From<$type> for Value<'_> {
            fn from(value: $type) -> Self {
                Value::$variant(value.into())
            }
        }
    )*};
}

values!(bool => Unsigned u8 => Unsigned u16 => Unsigned u32 => Unsigned u64 => Unsigned);
values!(i8 => Signed i16 => Signed i32 => Signed i64 => Signed);
values!([u8; 6] => Mac Ipv4Addr => Ipv4 Ipv6Addr => Ipv6);

/// The same of what is referred to.
macro_rules! borrowed {
    ($($type:ty => $variant:ident)*) => {$(
        impl<'a> From<&'a $type> for Value<'a> {
            fn from(value: &'a $type) -> Self {
                Value::$variant(value)
            }
        }
    )*};
}

borrowed!(str => Text String => Text [u8] => Bytes Vec<u8> => Bytes);

impl<'a, const N: usize> From<&'a [u8; N]> for Value<'a> {
    fn from(bytes: &'a [u8; N]) -> Self {
        Value::Bytes(bytes)
    }
}
