//! What a user of Rust expects of values: traits of all types, the calls of flag sets, numbers and names, defaults.

use linkwire::link::*;
use linkwire::{
    AddressFamily, CanonError, Cause, DecodeError, DefaultNla, Nla, NlaBuffer, NlasIterator, Parseable, RoomError,
};
use std::collections::{HashMap, HashSet};
use std::convert::TryFrom;
use std::error::Error;
use std::fmt::{Debug, Display};
use std::hash::Hash;

fn is_value<T: Clone + Debug + Eq + Hash + Send + Sync + Unpin + 'static>() {}
fn is_plain<T: Copy + Clone + Debug + Eq + Hash + Send + Sync + Unpin + 'static>() {}
fn is_attribute<T: Nla + for<'a> Parseable<NlaBuffer<&'a [u8]>> + for<'a> Parseable<NlaBuffer<&'a Vec<u8>>>>() {}
fn is_read<T: for<'a> TryFrom<&'a [u8], Error = DecodeError>>() {}
fn is_error<T: Error + Display + Send + Sync + 'static>() {}
fn has_default<T: Default>() {}

macro_rules! all {
    ($check:ident: $($type:ty),* $(,)?) => { $($check::<$type>();)* };
}

#[test]
fn traits() {
    all!(is_value: LinkMessage, LinkAttribute, LinkInfo, LinkXdp, Prop, DevlinkPort, DpllPin, LinkProtocolDownReason,
        LinkVfInfo, LinkVfPort, VfInfo, VfPort, VfStats, VfVlan, AfSpecBridge, AfSpecInet, AfSpecInet6, AfSpecMctp,
        AfSpecUnspec, LinkProtoInfoBridge, LinkProtoInfoInet6, WirelessEvent, DefaultNla);
    all!(is_plain: LinkHeader, LinkFlags, Inet6IfaceFlags, LinkLayerType, LinkMode, LinkEvent, LinkExtentMask,
        LinkPhysId, State, In6AddrGenMode, MctpPhysBinding, VfLinkState, VlanProtocol, XdpAttached, AddressFamily, Map,
        Stats, Stats64, Icmp6Stats, Inet6CacheInfo, Inet6DevConf, Inet6Stats, InetDevConf, VfInfoBroadcast, VfInfoGuid,
        VfInfoLinkState, VfInfoMac, VfInfoRate, VfInfoRssQueryEn, VfInfoSpoofCheck, VfInfoTrust, VfInfoTxRate,
        VfInfoVlan, VfVlanInfo, DecodeError, Cause, CanonError, RoomError);
    all!(is_attribute: LinkInfo, LinkXdp, Prop, DevlinkPort, DpllPin, LinkProtocolDownReason, LinkVfInfo, LinkVfPort,
        VfInfo, VfPort, VfStats, VfVlan, AfSpecBridge, AfSpecInet, AfSpecInet6, AfSpecMctp, AfSpecUnspec,
        LinkProtoInfoBridge, LinkProtoInfoInet6, DefaultNla);
    all!(is_read: LinkMessage, LinkHeader, LinkEvent, LinkPhysId, WirelessEvent, Map, Stats, Stats64, Icmp6Stats,
        Inet6CacheInfo, Inet6DevConf, Inet6Stats, InetDevConf, VfInfoBroadcast, VfInfoGuid, VfInfoLinkState, VfInfoMac,
        VfInfoRate, VfInfoRssQueryEn, VfInfoSpoofCheck, VfInfoTrust, VfInfoTxRate, VfInfoVlan, VfVlanInfo);
    all!(is_error: DecodeError, Cause, CanonError, RoomError);
    all!(has_default: LinkMessage, LinkHeader, LinkVfInfo, LinkVfPort, LinkFlags, LinkLayerType, LinkMode, LinkEvent,
        In6AddrGenMode, VfLinkState, VlanProtocol, AddressFamily, Map, Stats, Stats64, Icmp6Stats, Inet6DevConf,
        Inet6Stats, InetDevConf, VfInfoBroadcast, VfInfoGuid, VfInfoLinkState, VfInfoMac, VfInfoRate, VfInfoRssQueryEn,
        VfInfoSpoofCheck, VfInfoTrust, VfInfoTxRate, VfInfoVlan, VfVlanInfo);
}

/// Bits that have no name come last, as one value.
#[test]
fn flags() {
    let flags = LinkFlags::from_bits_retain(0x8000_0041);
    let unnamed = LinkFlags::from_bits_retain(0x8000_0000);
    assert_eq!(flags.iter().collect::<Vec<_>>(), [LinkFlags::Up, LinkFlags::Running, unnamed]);
    assert_eq!(flags.into_iter().collect::<LinkFlags>(), flags);
    let named: Vec<_> = flags.iter_names().collect();
    assert_eq!(named, [("Up", LinkFlags::Up), ("Running", LinkFlags::Running)]);
    let mut more = LinkFlags::Up;
    more.extend([LinkFlags::Running, unnamed]);
    assert_eq!(more, flags);
    assert_eq!(format!("{flags:x} {flags:#X} {flags:o} {flags:b}").len(), 8 + 1 + 10 + 1 + 11 + 1 + 32);
    assert_eq!(format!("{flags:x} {flags:#010X}"), "80000041 0x80000041");
    assert_eq!(flags.to_string(), "Up | Running | 0x80000000");
    assert_eq!(format!("{flags:?} {:?}", LinkFlags::empty()), "LinkFlags(Up | Running | 0x80000000) LinkFlags(0x0)");
    assert_eq!(LinkFlags::empty().to_string(), "");
    assert_eq!(LinkFlags::from_bits(u32::MAX), Some(LinkFlags::all()));
    assert_eq!(LinkFlags::from_bits_truncate(3), LinkFlags::Up | LinkFlags::Broadcast);
    assert_eq!(LinkFlags::from_name("LowerUp"), Some(LinkFlags::LowerUp));
    assert_eq!(flags - LinkFlags::Up, LinkFlags::Running | unnamed);
    assert_eq!(flags & !LinkFlags::Up ^ LinkFlags::Running, unnamed);
    assert_eq!(Inet6IfaceFlags::from_bits_retain(0xf0).iter().count(), 4);
    assert_eq!(HashSet::from([flags, more]).len(), 1);
}

#[test]
fn numbers_and_names() {
    assert_eq!("lowerlayerdown".parse::<State>(), Ok(State::LowerLayerDown));
    assert_eq!("7".parse::<State>().unwrap_err().cause, Cause::InvalidState);
    assert_eq!(State::from(6).to_string(), "UP");
    assert_eq!(u8::from(State::Up), 6);
    assert_eq!(u16::from(LinkLayerType::from(772)), 772);
    assert_eq!(LinkLayerType::Cisco, LinkLayerType::Hdlc);
    assert_eq!(u8::from(&In6AddrGenMode::StablePrivacy), 2);
    assert_eq!(XdpAttached::try_from(2), Ok(XdpAttached::SocketBuffer));
    assert_eq!(AddressFamily::from(255), AddressFamily::Other(255));
    assert_eq!(u16::from(VlanProtocol::Ieee8021Ad), 0x88a8);
}

/// The numbers of refusals are those of every other form of this library; those that only memory gives are not here.
#[test]
fn refusals() {
    let causes = [
        Cause::TooShort { got: 1, need: 2 },
        Cause::FrameShort { left: 1 },
        Cause::FrameOver { length: 9, left: 8 },
        Cause::FrameUnder { length: 3 },
        Cause::EmptyList,
        Cause::WrongLength { got: 1, want: 2 },
        Cause::NotUtf8,
        Cause::InvalidState,
    ];
    assert_eq!(causes.map(|it| it.number()), [1, 2, 3, 4, 5, 6, 7, 8]);
    let fault = DecodeError { place: "IFLA_MTU", cause: Cause::EmptyList };
    let refusals = [CanonError::Decode(fault), CanonError::DoesNotFit, CanonError::EmptyVfPorts];
    assert_eq!(refusals.map(|it| it.number()), [1, 2, 3]);
    assert_eq!(RoomError::from(refusals[1]), RoomError::NoEncoding(CanonError::DoesNotFit));
    assert_eq!(CanonError::from(fault), refusals[0]);
    let mut texts: Vec<String> = refusals.iter().map(ToString::to_string).collect();
    texts.extend(causes.iter().map(ToString::to_string));
    texts.push(RoomError::NoRoom { wanted: 24 }.to_string());
    assert_eq!(texts.iter().collect::<HashSet<_>>().len(), 12);
    assert!(texts.iter().all(|it| !it.is_empty()));
}

/// Fields are vectors and strings themselves, and messages are keys.
#[test]
fn own_types() {
    fn takes_string(name: String) -> usize {
        name.len()
    }
    let mut message = LinkMessage::default();
    message.header.flags |= LinkFlags::Up;
    message.extend([LinkAttribute::IfName("lo".to_string()), LinkAttribute::Address(vec![0; 6])]);
    let seen = HashMap::from([(message.clone(), 1)]);
    assert_eq!(seen.get(&message), Some(&1));
    for attribute in message.attributes {
        match attribute {
            LinkAttribute::IfName(name) => assert_eq!(takes_string(name), 2),
            LinkAttribute::Address(bytes) => assert_eq!(bytes.into_iter().map(usize::from).sum::<usize>(), 0),
            other => panic!("{other:?}"),
        }
    }
}

/// A payload is a part of the bytes that the frame was made over, and the rest after a record one of its argument.
#[test]
fn parts_lie_in_the_argument() {
    let headers = [6u16, 1, 0x707, 0, 4, 2];
    let bytes: Vec<u8> = headers.iter().flat_map(|it| it.to_ne_bytes()).collect();
    let frame = NlaBuffer::new_checked(&bytes[..]).unwrap();
    assert_eq!(frame.value().as_ptr_range(), bytes[4..6].as_ptr_range());
    let frames: Vec<_> = NlasIterator::new(&bytes[..]).map(|it| it.unwrap().value().as_ptr_range()).collect();
    assert_eq!(frames, [bytes[4..6].as_ptr_range(), bytes[12..].as_ptr_range()]);
    let (_, rest) = VfInfoTrustBuffer::read_from_prefix(&bytes).unwrap();
    assert_eq!(rest.as_ptr_range(), bytes[8..].as_ptr_range());
}
