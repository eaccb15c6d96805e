//! Which data a kind of interface or port has, and how they come from [`LinkInfo`] and go to it.

use super::places::*;
use super::{emit, parse, parts};
use crate::link_info::read::read;
use crate::link_info::{Info, InfoError, Style, Value};
use crate::link_msg::{self, LinkInfo};
use crate::nla_wire::{DecodeError, DefaultNla, NLA_TYPE_MASK, parse_string};
use crate::packet::{Nla, NlaBuffer, Parseable};
use crate::typed::parts::Members;
use alloc::string::String;
use alloc::vec::Vec;
use core::fmt;

/// `IFLA_INFO_DATA` and its neighbours (linux/if_link.h).
const INFO_DATA: u16 = 2;
const INFO_XSTATS: u16 = 3;
const INFO_SLAVE_KIND: u16 = 4;
const INFO_SLAVE_DATA: u16 = 5;

/// Kinds, and the data that they have.
macro_rules! kinds {
    (
        $(#[$kind_doc:meta])* $kinds:ident;
        $(#[$data_doc:meta])* $datas:ident;
        $($kind:ident $data:ident $text:literal $type:ident,)*
        ; $($alone:ident $alone_text:literal,)*
    ) => {
        $(#[$kind_doc])*
        #[derive(Clone, Debug, PartialEq, Eq, Hash)]
        #[cfg_attr(feature = "serde", derive(serde::Serialize, serde::Deserialize))]
        #[non_exhaustive]
        pub enum $kinds {
            $(
                #[doc = concat!("`", $text, "`.")]
                $kind,
            )*
            $(
                #[doc = concat!("`", $alone_text, "`, whose data have no type.")]
                $alone,
            )*
            /// Another kind.
            Other(String),
        }

        impl $kinds {
            /// The text of the kind.
            ///
            /// [`InfoKind`] has an example.
            #[must_use]
            pub fn as_str(&self) -> &str {
                match self {
                    $($kinds::$kind => $text,)*
                    $($kinds::$alone => $alone_text,)*
                    $kinds::Other(text) => text,
                }
            }
        }

        impl From<&str> for $kinds {
            fn from(text: &str) -> Self {
                match text {
                    $($text => $kinds::$kind,)*
                    $($alone_text => $kinds::$alone,)*
                    other => $kinds::Other(String::from(other)),
                }
            }
        }

        /// The kind whose text the attribute holds, with or without a NUL at its end. Its number is not looked at.
        impl<'a, T: AsRef<[u8]> + ?Sized> Parseable<NlaBuffer<&'a T>> for $kinds {
            fn parse(buf: &NlaBuffer<&'a T>) -> Result<Self, DecodeError> {
                parse_string(buf.frame()?.value()).map(|text| $kinds::from(text.as_str()))
            }
        }

        impl fmt::Display for $kinds {
            fn fmt(&self, f: &mut fmt::Formatter<'_>) -> fmt::Result {
                f.write_str(self.as_str())
            }
        }

        $(#[$data_doc])*
        #[derive(Clone, Debug, PartialEq, Eq, Hash)]
        #[cfg_attr(feature = "serde", derive(serde::Serialize, serde::Deserialize))]
        #[non_exhaustive]
        pub enum $datas {
            $(
                #[doc = concat!("The data of `", $text, "`.")]
                $data(Vec<$type>),
            )*
            /// The data of a kind that has no type: they are kept.
            Other(Vec<u8>),
        }

        impl $datas {
            /// The data of this kind.
            ///
            /// [`InfoData`] has an example.
            ///
            /// # Errors
            ///
            /// Refuses data of a kind with a type that are no whole attributes: the first fault.
            pub fn parse(kind: &$kinds, data: &[u8]) -> Result<Self, DecodeError> {
                Ok(match kind {
                    $($kinds::$kind => $datas::$data(parse(data)?),)*
                    _ => $datas::Other(data.to_vec()),
                })
            }

            /// The payload that they are written as.
            ///
            /// [`InfoData`] has an example.
            ///
            /// # Panics
            ///
            /// Where a value does not fit: an attribute holds at most 65531 bytes.
            #[must_use]
            pub fn emit(&self) -> Vec<u8> {
                match self {
                    $($datas::$data(list) => emit(list),)*
                    $datas::Other(bytes) => bytes.clone(),
                }
            }

            /// The kind that has such data; of `Other` it is not known.
            ///
            /// [`InfoData`] has an example.
            #[must_use]
            pub fn kind(&self) -> Option<$kinds> {
                match self {
                    $($datas::$data(_) => Some($kinds::$kind),)*
                    $datas::Other(_) => None,
                }
            }
        }
    };
}

/// Kinds of interfaces: variant, that of the data, text, and the enum of the data; and after them those without data.
macro_rules! interface_kinds {
    ($then:ident $($more:tt)*) => {
        $then! {
            $($more)*
            Vlan Vlan "vlan" InfoVlan,
            Bond Bond "bond" InfoBond,
            Bridge Bridge "bridge" InfoBridge,
            Vxlan Vxlan "vxlan" InfoVxlan,
            Geneve Geneve "geneve" InfoGeneve,
            GreTun GreTun "gre" InfoGre,
            GreTap GreTap "gretap" InfoGre,
            ErSpan ErSpan "erspan" InfoGre,
            GreTun6 GreTun6 "ip6gre" InfoGre6,
            GreTap6 GreTap6 "ip6gretap" InfoGre6,
            ErSpan6 ErSpan6 "ip6erspan" InfoGre6,
            IpTun IpTunnel "ipip" InfoIpTunnel,
            SitTun SitTun "sit" InfoIpTunnel,
            Ip6Tnl Ip6Tunnel "ip6tnl" InfoIp6Tunnel,
            Vti Vti "vti" InfoVti,
            Vti6 Vti6 "vti6" InfoVti6,
            Xfrm Xfrm "xfrm" InfoXfrm,
            MacVlan MacVlan "macvlan" InfoMacVlan,
            MacVtap MacVtap "macvtap" InfoMacVtap,
            IpVlan IpVlan "ipvlan" InfoIpVlan,
            IpVtap IpVtap "ipvtap" InfoIpVtap,
            MacSec MacSec "macsec" InfoMacSec,
            Can Can "can" InfoCan,
            Vcan Vcan "vcan" InfoCan,
            Vrf Vrf "vrf" InfoVrf,
            Tun Tun "tun" InfoTun,
            Netkit Netkit "netkit" InfoNetkit,
            Hsr Hsr "hsr" InfoHsr,
            RmNet RmNet "rmnet" InfoRmNet,
            Gtp Gtp "gtp" InfoGtp,
            BareUdp BareUdp "bareudp" InfoBareUdp,
            Amt Amt "amt" InfoAmt,
            Wwan Wwan "wwan" InfoWwan,
            Ovpn Ovpn "ovpn" InfoOvpn,
            Veth Veth "veth" InfoVeth,
            Vxcan Vxcan "vxcan" InfoVxcan,
            Ppp Ppp "ppp" InfoPpp,
            BatAdv BatAdv "batadv" InfoBatAdv,
            Dsa Dsa "dsa" InfoDsa,
            Ipoib Ipoib "ipoib" InfoIpoib,
            Wireguard Wireguard "wireguard" InfoWireguard,
            ;
            Dummy "dummy",
            Ifb "ifb",
            Nlmon "nlmon",
            Team "team",
            Lowpan "lowpan",
        }
    };
}

/// Kinds of ports, by the same words.
macro_rules! port_kinds {
    ($then:ident $($more:tt)*) => {
        $then! {
            $($more)*
            Bond BondPort "bond" InfoBondPort,
            Bridge BridgePort "bridge" InfoBridgePort,
            Vrf VrfPort "vrf" InfoVrfPort,
            Team TeamPort "team" InfoTeamPort,
            ;
        }
    };
}

pub(crate) use {interface_kinds, port_kinds};

interface_kinds! {
    kinds
    /// A kind of interface: the text of `IFLA_INFO_KIND`.
    ///
    /// ```
    /// use linkwire::typed::{InfoKind, InfoPortKind};
    /// let kind = InfoKind::from("vlan");
    /// assert_eq!((kind.as_str(), kind.to_string()), ("vlan", "vlan".to_string()));
    /// assert_eq!(InfoKind::from("geneve2"), InfoKind::Other("geneve2".to_string()));
    /// assert_eq!(InfoPortKind::Bridge.as_str(), "bridge");
    ///
    /// // of an attribute, as in netlink-packet-route
    /// use linkwire::{NlaBuffer, Parseable};
    /// let frame = NlaBuffer::new_checked(b"\x09\0\x01\0vlan\0\0\0\0")?;
    /// assert_eq!(InfoKind::parse(&frame)?, InfoKind::Vlan);
    /// # Ok::<(), linkwire::DecodeError>(())
    /// ```
    InfoKind;
    /// The data of a kind of interface: `IFLA_INFO_DATA`.
    ///
    /// ```
    /// use linkwire::typed::{BondPortState, InfoBondPort, InfoData, InfoKind, InfoPortData, InfoPortKind, InfoVlan};
    /// let vlan = InfoData::parse(&InfoKind::Vlan, &[6, 0, 1, 0, 10, 0, 0, 0])?;
    /// assert_eq!(vlan, InfoData::Vlan(vec![InfoVlan::Id(10)]));
    /// assert_eq!((vlan.kind(), vlan.emit()), (Some(InfoKind::Vlan), vec![6, 0, 1, 0, 10, 0, 0, 0]));
    /// let port = InfoPortData::parse(&InfoPortKind::Bond, &[5, 0, 1, 0, 1, 0, 0, 0])?;
    /// assert_eq!(port, InfoPortData::BondPort(vec![InfoBondPort::State(BondPortState::Backup)]));
    /// # Ok::<(), linkwire::DecodeError>(())
    /// ```
    InfoData;
}

port_kinds! {
    kinds
    /// A kind of port: the text of `IFLA_INFO_SLAVE_KIND`.
    InfoPortKind;
    /// The data of a kind of port: `IFLA_INFO_SLAVE_DATA`.
    InfoPortData;
}

/// A macvtap's data are those of a macvlan.
pub type InfoMacVtap = InfoMacVlan;
/// The mode of a macvtap is that of a macvlan.
pub type MacVtapMode = MacVlanMode;
/// The flags of a macvtap are those of a macvlan.
pub type MacVtapFlags = MacVlanFlags;
/// What is done with addresses of a macvtap is that of a macvlan.
pub type MacVtapMacAddressMode = MacVlanMacAddressMode;
/// An ipvtap's data are those of an ipvlan.
pub type InfoIpVtap = InfoIpVlan;
/// The mode of an ipvtap is that of an ipvlan.
pub type IpVtapMode = IpVlanMode;
/// The flags of an ipvtap are those of an ipvlan.
pub type IpVtapFlags = IpVlanFlags;
/// The members of `IFLA_PROTINFO` under AF_BRIDGE are those of a bridge's port.
pub type LinkProtoInfoBridge = InfoBridgePort;

/// What `IFLA_INFO_XSTATS` holds: counters of a kind of interface.
#[derive(Clone, Debug, PartialEq, Eq, Hash)]
#[cfg_attr(feature = "serde", derive(serde::Serialize, serde::Deserialize))]
#[non_exhaustive]
pub enum LinkXstats {
    /// Those of a CAN interface.
    Can(CanDeviceStats),
    /// Those of a kind that has no type, or of another length: they are kept.
    Other(Vec<u8>),
}

impl LinkXstats {
    /// The counters of this kind.
    ///
    /// ```
    /// use linkwire::typed::{InfoKind, LinkXstats};
    /// let stats = LinkXstats::parse(&InfoKind::Can, &[1; 24]);
    /// assert!(matches!(stats, LinkXstats::Can(counters) if counters.bus_error == 0x1010101));
    /// assert_eq!(stats.emit(), [1; 24]);
    /// assert_eq!(LinkXstats::parse(&InfoKind::Vlan, &[1]), LinkXstats::Other(vec![1]));
    /// ```
    pub fn parse(kind: &InfoKind, bytes: &[u8]) -> Self {
        let can = match kind {
            InfoKind::Can | InfoKind::Vcan => parts::record::read::<CanDeviceStats>(bytes),
            _ => None,
        };
        can.map_or_else(|| LinkXstats::Other(bytes.to_vec()), LinkXstats::Can)
    }

    /// The payload that they are written as.
    ///
    /// [`parse`](LinkXstats::parse) has an example.
    #[must_use]
    pub fn emit(&self) -> Vec<u8> {
        let mut out = Vec::new();
        match self {
            LinkXstats::Can(stats) => stats.add(&mut out),
            LinkXstats::Other(bytes) => out.extend_from_slice(bytes),
        }
        out
    }
}

/// What a list of [`LinkInfo`] says, as types. If an attribute is repeated, the last one counts, as for the kernel and
/// for [`view`](crate::view).
///
/// ```
/// use linkwire::typed::{BridgePortState, InfoBridgePort, InfoData, InfoKind, InfoPortData, InfoPortKind, InfoVlan};
/// use linkwire::{LinkInfo, typed::LinkInfos};
/// let vlan = InfoData::Vlan(vec![InfoVlan::Id(10)]);
/// let port = InfoPortData::BridgePort(vec![InfoBridgePort::State(BridgePortState::Forwarding)]);
/// let list = [
///     LinkInfo::from(InfoKind::Vlan),
///     LinkInfo::from(vlan.clone()),
///     LinkInfo::from(InfoPortKind::Bridge),
///     LinkInfo::from(port.clone()),
/// ];
/// assert_eq!((list.info_kind(), list.info_data()), (Some(InfoKind::Vlan), Some(Ok(vlan))));
/// assert_eq!((list.port_kind(), list.port_data()), (Some(InfoPortKind::Bridge), Some(Ok(port))));
/// assert_eq!(list.xstats(), None);
/// ```
pub trait LinkInfos {
    /// The kind of interface: the last `IFLA_INFO_KIND`.
    ///
    /// [The trait](LinkInfos) has an example.
    fn info_kind(&self) -> Option<InfoKind>;

    /// The data of that kind: the last `IFLA_INFO_DATA`; `Some(Err(..))` if it is no list of whole attributes.
    ///
    /// [`LinkMessage::parse`](crate::LinkMessage::parse) does not look into the data of a kind, and accepts such data.
    ///
    /// [The trait](LinkInfos) has an example.
    fn info_data(&self) -> Option<Result<InfoData, DecodeError>>;

    /// The kind of port: the last `IFLA_INFO_SLAVE_KIND`.
    ///
    /// [The trait](LinkInfos) has an example.
    fn port_kind(&self) -> Option<InfoPortKind>;

    /// The data of that kind: the last `IFLA_INFO_SLAVE_DATA`; `Some(Err(..))` if it is no list of whole attributes.
    ///
    /// [The trait](LinkInfos) has an example.
    fn port_data(&self) -> Option<Result<InfoPortData, DecodeError>>;

    /// The counters of the kind of interface: the last `IFLA_INFO_XSTATS`.
    ///
    /// [The trait](LinkInfos) has an example.
    fn xstats(&self) -> Option<LinkXstats>;
}

/// The payload of the last attribute of this number.
fn payload(list: &[LinkInfo], number: u16) -> Option<&[u8]> {
    list.iter().rev().find_map(|it| match it {
        LinkInfo::Other(frame) if Nla::kind(frame) & NLA_TYPE_MASK == number => Some(frame.value()),
        _ => None,
    })
}

impl LinkInfos for [LinkInfo] {
    fn info_kind(&self) -> Option<InfoKind> {
        self.iter().rev().find_map(|it| match it {
            LinkInfo::Kind(kind) => Some(InfoKind::from(kind.as_str())),
            _ => None,
        })
    }

    fn info_data(&self) -> Option<Result<InfoData, DecodeError>> {
        Some(InfoData::parse(&self.info_kind()?, payload(self, INFO_DATA)?))
    }

    fn port_kind(&self) -> Option<InfoPortKind> {
        match read(Style::Text, payload(self, INFO_SLAVE_KIND)?) {
            Value::Text(text) => Some(InfoPortKind::from(text)),
            _ => None,
        }
    }

    fn port_data(&self) -> Option<Result<InfoPortData, DecodeError>> {
        Some(InfoPortData::parse(&self.port_kind()?, payload(self, INFO_SLAVE_DATA)?))
    }

    fn xstats(&self) -> Option<LinkXstats> {
        Some(LinkXstats::parse(&self.info_kind()?, payload(self, INFO_XSTATS)?))
    }
}

impl Info {
    /// The data that are set, as types.
    ///
    /// # Errors
    ///
    /// Refuses data of more than 65531 bytes with `TooLong`.
    ///
    /// ```
    /// use linkwire::info::Info;
    /// use linkwire::typed::{InfoData, InfoVlan};
    /// let mut vlan = Info::new("vlan")?;
    /// vlan.set("id", 10)?;
    /// assert_eq!(vlan.data()?, InfoData::Vlan(vec![InfoVlan::Id(10)]));
    /// # Ok::<(), linkwire::info::InfoError>(())
    /// ```
    pub fn data(&self) -> Result<InfoData, InfoError> {
        let list = self.list()?;
        let data = InfoData::parse(&InfoKind::from(self.kind()), payload(&list, INFO_DATA).unwrap_or(&[]));
        data.map_err(|_| InfoError::Damaged)
    }
}

impl From<InfoKind> for LinkInfo {
    fn from(kind: InfoKind) -> Self {
        LinkInfo::Kind(String::from(kind.as_str()))
    }
}

impl From<InfoData> for LinkInfo {
    fn from(data: InfoData) -> Self {
        LinkInfo::Other(DefaultNla::new(INFO_DATA, data.emit()))
    }
}

impl From<InfoPortKind> for LinkInfo {
    fn from(kind: InfoPortKind) -> Self {
        let mut text = Vec::from(kind.as_str());
        text.push(0);
        LinkInfo::Other(DefaultNla::new(INFO_SLAVE_KIND, text))
    }
}

impl From<InfoPortData> for LinkInfo {
    fn from(data: InfoPortData) -> Self {
        LinkInfo::Other(DefaultNla::new(INFO_SLAVE_DATA, data.emit()))
    }
}

impl From<LinkXstats> for LinkInfo {
    fn from(stats: LinkXstats) -> Self {
        LinkInfo::Other(DefaultNla::new(INFO_XSTATS, stats.emit()))
    }
}

/// The kept form of an attribute, and its type.
macro_rules! kept {
    ($($kept:ident $typed:ident)*) => {$(
        impl From<&link_msg::$kept> for $typed {
            fn from(kept: &link_msg::$kept) -> Self {
                let link_msg::$kept::Other(frame) = kept;
                super::of_frame(Nla::kind(frame), frame.value())
            }
        }

        impl From<&$typed> for link_msg::$kept {
            fn from(typed: &$typed) -> Self {
                link_msg::$kept::Other(DefaultNla::new(Nla::kind(typed), super::payload(typed)))
            }
        }
    )*};
}

kept!(AfSpecBridge AfSpecBridge LinkProtoInfoBridge InfoBridgePort);
