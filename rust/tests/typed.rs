//! Types of link data: what they are read of is written as `rewrite` does, byte for byte.

use linkwire::info::{Info, KINDS, Place, Row, SLAVE_KINDS, Style, rewrite};
use linkwire::link::*;
use linkwire::typed::{self, LinkInfos, Typed, emit, parse};
use linkwire::view::{self, InfoDataView, InfoPortDataView, LinkView, LinkXstatsView, info_bridge_port, info_vlan};
use linkwire::{DefaultNla, Nla};
use std::fmt::Debug;

fn frame(kind: u16, payload: &[u8]) -> Vec<u8> {
    let mut frame = ((payload.len() + 4) as u16).to_ne_bytes().to_vec();
    frame.extend(kind.to_ne_bytes());
    frame.extend(payload);
    frame.resize(frame.len() + payload.len().wrapping_neg() % 4, 0);
    frame
}

/// What is written of what was read is what `rewrite` makes of it. A text with other flag bits in its kind is kept, and
/// then gets no NUL.
fn comes_back<T: Typed + Debug>(bytes: &[u8]) -> Vec<T> {
    let list: Vec<T> = parse(bytes).unwrap();
    let again = emit(&list);
    assert!(again == rewrite(T::ROWS, bytes).unwrap() || again == bytes, "{bytes:?} {list:?} {again:?}");
    list
}

/// Each number below 80 with each length below 50, and each row once as its variant.
fn each_row<T: Typed + Nla + Debug>(place: &str) {
    let mut seen = vec![false; T::ROWS.len()];
    for number in 0..80 {
        for flags in [0, 0x8000, 0x4000] {
            for (len, byte) in (0..50).flat_map(|len| [(len, 0), (len, 1), (len, 0x61), (len, 0xff)]) {
                let one = frame(number | flags, &vec![byte; len]);
                let list = comes_back::<T>(&one);
                if list[0].kept().is_none() {
                    seen[T::ROWS.iter().position(|row| row.number() == number).unwrap()] = true;
                    assert_eq!(list[0].kind(), number | flags);
                }
            }
        }
    }
    let protocol = [frame(5, &[0x81, 0]), frame(8, &[0x81, 0])].concat();
    for (k, one) in parse::<T>(&protocol).unwrap().iter().enumerate() {
        if let (None, Some(at)) = (one.kept(), T::ROWS.iter().position(|row| row.number() == [5, 8][k])) {
            seen[at] = true;
        }
    }
    let lists = T::ROWS.iter().enumerate().filter(|(_, row)| matches!(row.style(), Style::List(_)));
    let lists: Vec<usize> = lists.map(|(at, _)| at).collect();
    for at in lists {
        for len in [4, 16] {
            let inner = [frame(0, &vec![7; len]), frame(1, &vec![9; len])].concat();
            let found = comes_back::<T>(&frame(T::ROWS[at].number(), &inner));
            seen[at] |= found[0].kept().is_none();
        }
    }
    for (at, row) in T::ROWS.iter().enumerate() {
        assert!(seen[at], "{place}: {} is never read as its variant", row.name());
    }
}

/// Lists of attributes that are made: numbers of rows, lengths that fit or not, any bytes.
fn made<T: Typed + Debug>(seed: &mut u64, count: usize) {
    let mut next = |below: u64| {
        *seed = seed.wrapping_mul(6364136223846793005).wrapping_add(1442695040888963407);
        (*seed >> 33) % below
    };
    for _ in 0..count {
        let mut bytes = Vec::new();
        for _ in 0..next(4) {
            let row = (!T::ROWS.is_empty()).then(|| T::ROWS[next(T::ROWS.len() as u64) as usize]);
            let number = row.filter(|_| next(8) > 0).map_or(next(100) as u16, |row| row.number());
            let len = [0, 1, 2, 4, 4, 8, 8, 16, 6, 32, next(40)][next(11) as usize] as usize;
            let flags = [0, 0, 0, 0, 0, 0x8000, 0x4000, 0xc000][next(8) as usize];
            let payload: Vec<u8> = (0..len).map(|_| if next(3) == 0 { next(256) as u8 } else { 0 }).collect();
            bytes.extend(frame(number | flags, &payload));
        }
        comes_back::<T>(&bytes);
    }
}

macro_rules! places {
    ($($place:ident $type:ident)* ; $($more:ident)*) => {
        #[test]
        fn each_row_comes_back() {
            $(
                assert_eq!(numbers(<typed::$type as Typed>::ROWS), numbers(Place::$place.rows()), stringify!($place));
                each_row::<typed::$type>(stringify!($place));
            )*
            $(each_row::<typed::$more>(stringify!($more));)*
        }

        #[test]
        fn a_hundred_thousand_come_back() {
            let mut seed = 60;
            $(made::<typed::$type>(&mut seed, 2300);)*
            $(made::<typed::$more>(&mut seed, 100);)*
        }

        const PLACES: &[Place] = &[$(Place::$place),*];
    };
}

places! {
    Vlan InfoVlan VlanQos VlanQosMapping Bond InfoBond BondAdInfo BondAdInfo BondSlave InfoBondPort Bridge InfoBridge
    BridgeQuerier BridgeQuerierState BridgePort InfoBridgePort Vxlan InfoVxlan Geneve InfoGeneve Gre InfoGre
    Gre6 InfoGre6 IpTunnel InfoIpTunnel Ip6Tunnel InfoIp6Tunnel Vti InfoVti Vti6 InfoVti6 Xfrm InfoXfrm
    Macvlan InfoMacVlan MacvlanAddresses InfoMacVlanAddresses Ipvlan InfoIpVlan Macsec InfoMacSec Can InfoCan
    CanTdc CanTdc CanCtrlmode CanCtrlModeExt Vrf InfoVrf VrfPort InfoVrfPort Tun InfoTun Netkit InfoNetkit
    Hsr InfoHsr Rmnet InfoRmNet Gtp InfoGtp Bareudp InfoBareUdp Amt InfoAmt Wwan InfoWwan Ovpn InfoOvpn
    Veth InfoVeth Vxcan InfoVxcan Ppp InfoPpp BridgeSpec AfSpecBridge BridgeVlanTunnel BridgeVlanTunnelInfo
    BridgeMst BridgeMst BridgeMstEntry BridgeMstEntry Inet6 InfoInet6 Port InfoPort ;
    InfoBatAdv InfoDsa InfoIpoib InfoWireguard InfoTeamPort
}

fn numbers(rows: &[Row]) -> Vec<(u16, &str)> {
    rows.iter().map(|row| (row.number(), row.name())).collect()
}

#[test]
fn each_kind_has_a_type() {
    assert_eq!(PLACES.len(), linkwire::info::PLACES);
    for row in KINDS {
        let kind = InfoKind::from(row.kind());
        let data = InfoData::parse(&kind, &[]).unwrap();
        assert_eq!((kind.as_str(), data.kind().unwrap().as_str()), (row.kind(), row.kind()));
    }
    for row in SLAVE_KINDS {
        let kind = InfoPortKind::from(row.kind());
        assert_eq!(InfoPortData::parse(&kind, &[]).unwrap().kind(), Some(kind));
    }
}

#[test]
fn a_bond() {
    let data = InfoData::Bond(vec![InfoBond::Mode(BondMode::Ieee8023Ad), InfoBond::MiiMon(100)]);
    let bytes = [frame(1, &[4]), frame(3, &100u32.to_ne_bytes())].concat();
    assert_eq!(data.emit(), bytes);
    assert_eq!(InfoData::parse(&InfoKind::Bond, &bytes).unwrap(), data);
    assert_eq!(BondMode::Ieee8023Ad.to_string(), "802.3ad");
    assert_eq!(format!("{:?}", VlanFlags::Gvrp | VlanFlags::from_bits_retain(0x40)), "VlanFlags(Gvrp | 0x40)");
    let damaged = InfoData::parse(&InfoKind::Bond, &[3u16.to_ne_bytes(), [0; 2]].concat()).unwrap_err();
    assert_eq!(damaged.cause.to_string(), "a length of 3, below that of a header");
}

#[test]
fn what_would_be_lost_is_kept() {
    // a protocol that netlink-packet-route reads as 802.1q, and the flag of nests where the kernel sets none
    for one in [frame(5, &[0, 0]), frame(0x8003, &[]), frame(0x8005, &[0x81, 0])] {
        assert!(matches!(parse::<InfoVlan>(&one).unwrap()[..], [InfoVlan::Other(_)]), "{one:?}");
    }
    let states = frame(0x802f, &frame(1, &[10, 0, 0, 1]));
    let state = InfoBridge::MulticastQuerierState(vec![BridgeQuerierState::IpAddress([10, 0, 0, 1].into())]);
    assert_eq!(parse::<InfoBridge>(&states).unwrap(), [state]);
    // a list whose numbers do not ascend from 0
    let list = frame(8, &frame(1, &[10, 0, 0, 1]));
    assert!(matches!(parse::<InfoBond>(&list).unwrap()[..], [InfoBond::Other(_)]));
}

#[test]
fn lists_of_link_info() {
    let vlan = vec![InfoVlan::Id(10), InfoVlan::Protocol(linkwire::VlanProtocol::Ieee8021Ad)];
    let list = [
        LinkInfo::from(InfoKind::Vlan),
        LinkInfo::from(InfoData::Vlan(vlan.clone())),
        LinkInfo::from(InfoPortKind::Bridge),
        LinkInfo::from(InfoPortData::BridgePort(vec![InfoBridgePort::State(BridgePortState::Forwarding)])),
    ];
    assert_eq!(list.info_kind(), Some(InfoKind::Vlan));
    assert_eq!(list.info_data(), Some(Ok(InfoData::Vlan(vlan.clone()))));
    assert_eq!(list.port_kind(), Some(InfoPortKind::Bridge));
    assert!(matches!(list.port_data(), Some(Ok(InfoPortData::BridgePort(list))) if list.len() == 1));
    assert_eq!(list.xstats(), None);
    assert_eq!(Info::of(&list).unwrap().data(), Ok(InfoData::Vlan(vlan)));
    let dummy = [LinkInfo::from(InfoKind::Dummy)];
    assert_eq!((dummy.info_kind(), dummy.info_data()), (Some(InfoKind::Dummy), None));
    assert_eq!(Info::new("dummy").unwrap().data(), Ok(InfoData::Other(Vec::new())));
    let can = [LinkInfo::from(InfoKind::Can), LinkInfo::Other(DefaultNla::new(3, vec![1; 24]))];
    let stats = match can.xstats() {
        Some(LinkXstats::Can(stats)) => stats,
        other => panic!("24 bytes are six counters: {other:?}"),
    };
    assert_eq!((stats.bus_error, LinkInfo::from(LinkXstats::Can(stats))), (0x1010101, can[1].clone()));
}

/// Each attribute twice: the last one counts, in a list and in a view.
#[test]
fn repeated_link_info() {
    let vlan = |id| InfoData::Vlan(vec![InfoVlan::Id(id)]);
    let port = |state| InfoPortData::BridgePort(vec![InfoBridgePort::State(state)]);
    let list = vec![
        LinkInfo::from(InfoKind::Bridge),
        LinkInfo::from(vlan(7)),
        LinkInfo::from(LinkXstats::Other(vec![1])),
        LinkInfo::from(InfoPortKind::Bond),
        LinkInfo::from(port(BridgePortState::Disabled)),
        LinkInfo::from(vlan(100)),
        LinkInfo::from(InfoKind::Vlan),
        LinkInfo::from(LinkXstats::Other(vec![2])),
        LinkInfo::from(port(BridgePortState::Forwarding)),
        LinkInfo::from(InfoPortKind::Bridge),
    ];
    assert_eq!((list.info_kind(), list.info_data()), (Some(InfoKind::Vlan), Some(Ok(vlan(100)))));
    assert_eq!(list.port_kind(), Some(InfoPortKind::Bridge));
    assert_eq!(list.port_data(), Some(Ok(port(BridgePortState::Forwarding))));
    assert_eq!(list.xstats(), Some(LinkXstats::Other(vec![2])));
    let mut message = LinkMessage::default();
    message.attributes.push(LinkAttribute::LinkInfo(list));
    let bytes = message.to_vec().unwrap();
    let info = LinkView::new(&bytes).unwrap().get(view::LinkInfo).unwrap().unwrap();
    assert_eq!((info.kind(), info.port_kind()), (Ok(Some("vlan")), Ok(Some("bridge"))));
    assert_eq!(info.xstats(), Ok(Some(LinkXstatsView::Other(&[2]))));
    match (info.data(), info.port_data()) {
        (Ok(Some(InfoDataView::Vlan(data))), Ok(Some(InfoPortDataView::BridgePort(port)))) => {
            assert_eq!(data.get(info_vlan::Id), Ok(Some(100)));
            assert_eq!(port.get(info_bridge_port::State), Ok(Some(BridgePortState::Forwarding)));
        }
        other => panic!("{other:?}"),
    }
}

/// A message whose data of a kind end within an attribute: `parse` accepts it, and what reads the data does not.
#[test]
fn damaged_data() {
    let mut message = LinkMessage::default();
    let data = LinkInfo::Other(DefaultNla::new(2, vec![8, 0, 1]));
    let list = vec![LinkInfo::from(InfoKind::Vlan), data];
    assert!(matches!(list.info_data(), Some(Err(_))));
    message.attributes.push(LinkAttribute::LinkInfo(list));
    let bytes = message.to_vec().unwrap();
    assert_eq!(LinkMessage::parse(&bytes), Ok(message));
    let info = LinkView::new(&bytes).unwrap().get(view::LinkInfo).unwrap().unwrap();
    assert!(info.data().is_err());
}

#[test]
fn kept_forms() {
    let kept = linkwire::AfSpecBridge::Other(DefaultNla::new(1, 1u16.to_ne_bytes().to_vec()));
    let mode = typed::AfSpecBridge::from(&kept);
    assert_eq!(mode, typed::AfSpecBridge::Mode(BridgeMode::Vepa));
    assert_eq!(linkwire::AfSpecBridge::from(&mode), kept);
    let kept = linkwire::LinkProtoInfoBridge::Other(DefaultNla::new(1, vec![3]));
    let state = typed::LinkProtoInfoBridge::from(&kept);
    assert_eq!(state, InfoBridgePort::State(BridgePortState::Forwarding));
    assert_eq!(linkwire::LinkProtoInfoBridge::from(&state), kept);
    let id = BridgeId { priority: 0x8000, address: [0, 1, 2, 3, 4, 5] };
    assert_eq!(BridgeIdBuffer::from(&id).as_bytes(), [0x80, 0, 0, 1, 2, 3, 4, 5]);
}

#[test]
fn a_peer_is_a_message() {
    let mut peer = LinkMessage::default();
    peer.attributes.push(LinkAttribute::IfName("v1".to_string()));
    let bytes = emit(&[InfoVeth::Peer(peer.clone())]);
    assert_eq!(parse::<InfoVeth>(&bytes).unwrap(), [InfoVeth::Peer(peer)]);
}

/// How many data a message has, each of which comes back byte for byte.
fn data(bytes: &[u8]) -> (usize, usize) {
    let (mut count, mut others) = (0, 0);
    let attributes = LinkMessage::parse(bytes).map_or(Vec::new(), |message| message.attributes);
    let lists = attributes.iter().filter_map(|it| match it {
        LinkAttribute::LinkInfo(list) => Some(list),
        _ => None,
    });
    for list in lists {
        for it in list {
            let again = match it {
                LinkInfo::Other(frame) if frame.kind() == 2 => list.info_data().map(|it| LinkInfo::from(it.unwrap())),
                LinkInfo::Other(frame) if frame.kind() == 5 => list.port_data().map(|it| LinkInfo::from(it.unwrap())),
                _ => continue,
            };
            // data without a kind have no type
            assert_eq!(again.as_ref().unwrap_or(it), it, "{list:?}");
            count += 1;
            others += usize::from(matches!(list.info_data(), Some(Ok(InfoData::Other(_)))));
        }
    }
    (count, others)
}

/// The messages of `bench/messages.txt`, where it stands beside the crate, and of the file that `LINK_MESSAGES` names:
/// each the hexadecimal digits at the end of a line.
#[test]
#[cfg_attr(target_endian = "big", ignore = "they were recorded on little-endian machines")]
fn messages_of_kernels() {
    let mut paths = vec![concat!(env!("CARGO_MANIFEST_DIR"), "/../bench/messages.txt").to_string()];
    paths.extend(std::env::var("LINK_MESSAGES"));
    for path in paths {
        let text = match std::fs::read_to_string(&path) {
            Ok(text) => text,
            Err(_) => continue,
        };
        let (mut messages, mut counts) = (0, (0, 0));
        for line in text.lines().filter_map(|line| line.split_whitespace().last()) {
            let digits: Option<Vec<u8>> = line.bytes().map(|it| Some((it as char).to_digit(16)? as u8)).collect();
            let digits = digits.filter(|it| it.len() >= 32 && it.len() % 2 == 0).unwrap_or_default();
            if digits.is_empty() {
                continue;
            }
            let bytes: Vec<u8> = digits.chunks(2).map(|it| it[0] * 16 + it[1]).collect();
            let (count, others) = data(&bytes);
            (messages, counts) = (messages + 1, (counts.0 + count, counts.1 + others));
        }
        println!("{path}: {messages} messages, {} data, {} of kinds without a type", counts.0, counts.1);
        assert!(counts.0 > 0, "{path}: there are data");
    }
}
