//! Requests beside those that `ip` of iproute2 6.1 sent, which were recorded as it sent them.

use linkwire::VlanProtocol::Ieee8021Ad;
use linkwire::link::*;
use linkwire::request::{self, Request, RequestError};
use linkwire::typed::{InfoData, InfoKind};
use linkwire::{DefaultNla, canonical};

type Made = Result<Request, RequestError>;

struct Row {
    command: &'static str,
    /// The type and the flags.
    header: (u16, u16),
    /// What stood after netlink's header.
    sent: &'static str,
    made: fn() -> Made,
}

fn one(request: Made) -> Made {
    request
}

/// A change of the link of index 3.
fn with(index: u32, attribute: LinkAttribute) -> Made {
    let up = request::up(index)?;
    let mut made = Request::new(up.message_type, up.flags, LinkMessage::default()).with(attribute);
    made.header.index = index;
    Ok(made)
}

fn function(setting: VfInfo) -> Made {
    request::function(3, vec![setting])
}

/// A link above another, as `ip` has it: first the link below.
fn below(index: u32, name: &str, kind: InfoKind, data: InfoData) -> Made {
    let made = request::add(name, kind, Some(data))?;
    let mut message = made.message();
    message.attributes.insert(0, LinkAttribute::Link(index));
    Ok(Request::new(made.message_type, made.flags, message))
}

const ROWS: &[Row] = &[
    Row {
        command: "ip link show",
        header: (18, 0x301),
        sent: "1100000000000000000000000000000008001d0001000000",
        made: || Ok(request::dump(&[LinkExtentMask::Vf])),
    },
    Row {
        command: "ip link show dev v0",
        header: (18, 0x1),
        sent: "0000000002000000000000000000000008001d0009000000",
        made: || one(request::get(2, &[LinkExtentMask::Vf, LinkExtentMask::SkipStats])),
    },
    Row {
        command: "ip link set dev v0 mtu 1400",
        header: (16, 0x5),
        sent: "000000000300000000000000000000000800040078050000",
        made: || one(request::mtu(3, 1400)),
    },
    Row {
        command: "ip link set dev v0 up",
        header: (16, 0x5),
        sent: "00000000030000000100000001000000",
        made: || one(request::up(3)),
    },
    Row {
        command: "ip link set dev v0 down",
        header: (16, 0x5),
        sent: "00000000030000000000000001000000",
        made: || one(request::down(3)),
    },
    Row {
        command: "ip link set dev v0 name w0",
        header: (16, 0x5),
        sent: "000000000300000000000000000000000700030077300000",
        made: || one(request::name(3, "w0")),
    },
    Row {
        command: "ip link set dev w0 name v0",
        header: (16, 0x5),
        sent: "000000000300000000000000000000000700030076300000",
        made: || one(request::name(3, "v0")),
    },
    Row {
        command: "ip link set dev v0 alias uplink",
        header: (16, 0x5),
        sent: "000000000300000000000000000000000a00140075706c696e6b0000",
        made: || one(request::alias(3, "uplink")),
    },
    Row {
        command: "ip link set dev v0 master v2",
        header: (16, 0x5),
        sent: "0000000003000000000000000000000008000a0005000000",
        made: || one(request::controller(3, Some(5))),
    },
    Row {
        command: "ip link set dev v0 nomaster",
        header: (16, 0x5),
        sent: "0000000003000000000000000000000008000a0000000000",
        made: || one(request::controller(3, None)),
    },
    Row {
        command: "ip link set dev v0 netns 999999",
        header: (16, 0x5),
        sent: "00000000030000000000000000000000080013003f420f00",
        made: || one(request::namespace_of(3, 999_999)),
    },
    Row {
        command: "ip link set dev v0 address 02:00:00:00:00:07",
        header: (16, 0x5),
        sent: "000000000300000000000000000000000a0001000200000000070000",
        made: || one(request::address(3, &[2, 0, 0, 0, 0, 7])),
    },
    Row {
        command: "ip link set dev v0 txqueuelen 500",
        header: (16, 0x5),
        sent: "0000000003000000000000000000000008000d00f4010000",
        made: || with(3, LinkAttribute::TxQueueLen(500)),
    },
    Row {
        command: "ip link set dev v0 group 7",
        header: (16, 0x5),
        sent: "0000000003000000000000000000000008001b0007000000",
        made: || with(3, LinkAttribute::Group(7)),
    },
    Row {
        command: "ip link set dev v0 promisc on",
        header: (16, 0x5),
        sent: "00000000030000000001000000010000",
        made: || one(request::flags(3, LinkFlags::Promisc, LinkFlags::Promisc)),
    },
    Row {
        command: "ip link set dev v0 arp off",
        header: (16, 0x5),
        sent: "00000000030000008000000080000000",
        made: || one(request::flags(3, LinkFlags::Noarp, LinkFlags::Noarp)),
    },
    Row {
        command: "ip link set dev v0 multicast off",
        header: (16, 0x5),
        sent: "00000000030000000000000000100000",
        made: || one(request::flags(3, LinkFlags::empty(), LinkFlags::Multicast)),
    },
    Row {
        command: "ip link set dev v0 allmulticast on",
        header: (16, 0x5),
        sent: "00000000030000000002000000020000",
        made: || one(request::flags(3, LinkFlags::Allmulti, LinkFlags::Allmulti)),
    },
    Row {
        command: "ip link set dev v0 vf 3 mac 02:00:00:00:00:08",
        header: (16, 0x5),
        sent: concat!(
            "00000000030000000000000000000000300016002c000100280001000300000002000000000800000000000000000000",
            "00000000000000000000000000000000"
        ),
        made: || function(VfInfo::Mac(VfInfoMac::new(3, &[2, 0, 0, 0, 0, 8]))),
    },
    Row {
        command: "ip link set dev v0 vf 3 vlan 100 qos 2",
        header: (16, 0x5),
        sent: "00000000030000000000000000000000180016001400010010000200030000006400000002000000",
        made: || function(VfInfo::Vlan(VfInfoVlan::new(3, 100, 2))),
    },
    Row {
        command: "ip link set dev v0 vf 3 vlan 100 qos 2 proto 802.1ad",
        header: (16, 0x5),
        sent: "00000000030000000000000000000000200016001c00010018000c001400010003000000640000000200000088a80000",
        made: || function(VfInfo::VlanList(vec![VfVlan::Info(VfVlanInfo::new(3, 100, 2, Ieee8021Ad))])),
    },
    Row {
        command: "ip link set dev v0 vf 3 max_tx_rate 1000 min_tx_rate 100",
        header: (16, 0x5),
        sent: "000000000300000000000000000000001800160014000100100006000300000064000000e8030000",
        made: || function(VfInfo::Rate(VfInfoRate::new(3, 100, 1000))),
    },
    Row {
        command: "ip link set dev v0 vf 3 spoofchk on",
        header: (16, 0x5),
        sent: "0000000003000000000000000000000014001600100001000c0004000300000001000000",
        made: || function(VfInfo::SpoofCheck(VfInfoSpoofCheck::new(3, true))),
    },
    Row {
        command: "ip link set dev v0 vf 3 state enable",
        header: (16, 0x5),
        sent: "0000000003000000000000000000000014001600100001000c0005000300000001000000",
        made: || function(VfInfo::LinkState(VfInfoLinkState::new(3, VfLinkState::Enable))),
    },
    Row {
        command: "ip link set dev v0 vf 3 trust on",
        header: (16, 0x5),
        sent: "0000000003000000000000000000000014001600100001000c0009000300000001000000",
        made: || function(VfInfo::Trust(VfInfoTrust::new(3, true))),
    },
    Row {
        command: "ip link set dev v0 vf 3 query_rss on",
        header: (16, 0x5),
        sent: "0000000003000000000000000000000014001600100001000c0007000300000001000000",
        made: || function(VfInfo::RssQueryEn(VfInfoRssQueryEn::new(3, true))),
    },
    Row {
        command: "ip link property add dev v0 altname uplink-of-rack-7",
        header: (108, 0xe05),
        sent: "000000000300000000000000000000001c0034801500350075706c696e6b2d6f662d7261636b2d3700000000",
        made: || one(request::add_names(3, ["uplink-of-rack-7"])),
    },
    Row {
        command: "ip link property add dev v0 altname one altname two",
        header: (108, 0xe05),
        sent: "0000000003000000000000000000000014003480080035006f6e65000800350074776f00",
        made: || one(request::add_names(3, ["one", "two"])),
    },
    Row {
        command: "ip link property del dev v0 altname one",
        header: (109, 0x5),
        sent: "000000000300000000000000000000000c003480080035006f6e6500",
        made: || one(request::delete_names(3, ["one"])),
    },
    Row {
        command: "ip link add dum0 type dummy",
        header: (16, 0x605),
        sent: "000000000000000000000000000000000900030064756d3000000000100012000900010064756d6d79000000",
        made: || one(request::add("dum0", InfoKind::Dummy, None)),
    },
    Row {
        command: "ip link add name vl0 link v0 type vlan id 10",
        header: (16, 0x605),
        sent: concat!(
            "00000000000000000000000000000000080005000300000008000300766c30001800120008000100766c616e0c000200",
            "060001000a000000"
        ),
        made: || below(3, "vl0", InfoKind::Vlan, InfoData::Vlan(vec![InfoVlan::Id(10)])),
    },
    Row {
        command: "ip link add link v0 name vl1 type vlan proto 802.1ad id 100 gvrp on",
        header: (16, 0x605),
        sent: concat!(
            "00000000000000000000000000000000080005000300000008000300766c31002c00120008000100766c616e20000200",
            "0600050088a8000006000100640000000c0002000200000002000000"
        ),
        made: || {
            let flags = VlanFlagsAndMask { flags: VlanFlags::Gvrp, mask: VlanFlags::Gvrp };
            let vlan = vec![InfoVlan::Protocol(Ieee8021Ad), InfoVlan::Id(100), InfoVlan::Flags(flags)];
            below(3, "vl1", InfoKind::Vlan, InfoData::Vlan(vlan))
        },
    },
    Row {
        command: "ip link add br0 type bridge",
        header: (16, 0x605),
        sent: "000000000000000000000000000000000800030062723000100012000a0001006272696467650000",
        made: || one(request::add("br0", InfoKind::Bridge, None)),
    },
    Row {
        command: "ip link add br1 type bridge forward_delay 400 vlan_filtering 1 stp_state 1",
        header: (16, 0x605),
        sent: concat!(
            "0000000000000000000000000000000008000300627231002c0012000a00010062726964676500001c00020008000100",
            "9001000005000700010000000800050001000000"
        ),
        made: || {
            let stp = InfoBridge::StpState(BridgeStpState::Kernel);
            let bridge = vec![InfoBridge::ForwardDelay(400), InfoBridge::VlanFiltering(1), stp];
            one(request::add("br1", InfoKind::Bridge, Some(InfoData::Bridge(bridge))))
        },
    },
    Row {
        command: "ip link add bond0 type bond mode 802.3ad miimon 100 lacp_rate fast",
        header: (16, 0x605),
        sent: concat!(
            "000000000000000000000000000000000a000300626f6e64300000002800120008000100626f6e641c00020005000100",
            "0400000008000300640000000500150001000000"
        ),
        made: || {
            let mode = InfoBond::Mode(BondMode::Ieee8023Ad);
            let bond = vec![mode, InfoBond::MiiMon(100), InfoBond::AdLacpRate(BondLacpRate::Fast)];
            one(request::add("bond0", InfoKind::Bond, Some(InfoData::Bond(bond))))
        },
    },
    Row {
        command: "ip link add vx0 type vxlan id 42 dev v0 group 239.1.1.1 dstport 4789 ttl 5",
        header: (16, 0x605),
        sent: concat!(
            "000000000000000000000000000000000800030076783000440012000900010076786c616e0000003400020008000300",
            "030000000500050005000000080001002a00000008000200ef010101050007000100000006000f0012b50000"
        ),
        made: || {
            let group = InfoVxlan::Group([239, 1, 1, 1].into());
            let first = vec![InfoVxlan::Link(3), InfoVxlan::Ttl(5), InfoVxlan::Id(42), group];
            let vxlan = [first, vec![InfoVxlan::Learning(1), InfoVxlan::Port(4789)]].concat();
            one(request::add("vx0", InfoKind::Vxlan, Some(InfoData::Vxlan(vxlan))))
        },
    },
    Row {
        command: "ip link add link v0 name mv0 type macvlan mode bridge",
        header: (16, 0x605),
        sent: concat!(
            "000000000000000000000000000000000800050003000000080003006d7630001c0012000b0001006d6163766c616e00",
            "0c0002000800010004000000"
        ),
        made: || below(3, "mv0", InfoKind::MacVlan, InfoData::MacVlan(vec![InfoMacVlan::Mode(MacVlanMode::Bridge)])),
    },
    Row {
        command: "ip link add link v0 name iv0 type ipvlan mode l3",
        header: (16, 0x605),
        sent: concat!(
            "0000000000000000000000000000000008000500030000000800030069763000240012000a0001006970766c616e0000",
            "1400020006000100010000000600020000000000"
        ),
        made: || {
            let ipvlan = vec![InfoIpVlan::Mode(IpVlanMode::L3), InfoIpVlan::Flags(IpVlanFlags::empty())];
            below(3, "iv0", InfoKind::IpVlan, InfoData::IpVlan(ipvlan))
        },
    },
    Row {
        command: "ip link add vrf0 type vrf table 10",
        header: (16, 0x605),
        sent: concat!(
            "000000000000000000000000000000000900030076726630000000001800120007000100767266000c00020008000100",
            "0a000000"
        ),
        made: || one(request::add("vrf0", InfoKind::Vrf, Some(InfoData::Vrf(vec![InfoVrf::TableId(10)])))),
    },
    Row {
        command: "ip link add gt0 type gretap local 10.0.0.1 remote 10.0.0.2 key 5",
        header: (16, 0x605),
        sent: concat!(
            "000000000000000000000000000000000800030067743000840012000a00010067726574617000007400020008000400",
            "00000005080005000000000506000200200000000600030020000000080006000a000001080007000a00000205000a00",
            "0100000005000900000000000500080000000000080014000000000006000e000000000006000f000000000006001000",
            "000000000600110000000000"
        ),
        made: || {
            let ends = [InfoGre::Ikey(5), InfoGre::Okey(5), InfoGre::Iflags(GreIOFlags::Key)];
            let [ikey, okey, iflags] = ends;
            let keys = vec![ikey, okey, iflags, InfoGre::Oflags(GreIOFlags::Key)];
            let local = InfoGre::Local([10, 0, 0, 1].into());
            let more = vec![local, InfoGre::Remote([10, 0, 0, 2].into()), InfoGre::Pmtudisc(1), InfoGre::Tos(0)];
            let encap = vec![InfoGre::Ttl(0), InfoGre::Fwmark(0), InfoGre::EncapType(GreEncapType::None)];
            let ports = [InfoGre::EncapFlags(GreEncapFlags::empty()), InfoGre::EncapSport(0), InfoGre::EncapDport(0)];
            let gre = [keys, more, encap, ports.to_vec()].concat();
            one(request::add("gt0", InfoKind::GreTap, Some(InfoData::GreTap(gre))))
        },
    },
    Row {
        command: "ip link add v8 type veth peer name v9",
        header: (16, 0x605),
        sent: concat!(
            "0000000000000000000000000000000007000300763800002c0012000800010076657468200002001c00010000000000",
            "0000000000000000000000000700030076390000"
        ),
        made: || {
            let mut peer = LinkMessage::default();
            peer.attributes.push(LinkAttribute::IfName("v9".to_string()));
            one(request::add("v8", InfoKind::Veth, Some(InfoData::Veth(vec![InfoVeth::Peer(peer)]))))
        },
    },
    Row {
        command: "ip link add xf0 type xfrm dev v0 if_id 7",
        header: (16, 0x605),
        sent: concat!(
            "00000000000000000000000000000000080003007866300020001200080001007866726d140002000800020007000000",
            "0800010003000000"
        ),
        made: || {
            one(request::add("xf0", InfoKind::Xfrm, Some(InfoData::Xfrm(vec![InfoXfrm::IfId(7), InfoXfrm::Link(3)]))))
        },
    },
    Row {
        command: "ip link set dev v0 type vlan id 11",
        header: (16, 0x5),
        sent: "000000000300000000000000000000001800120008000100766c616e0c000200060001000b000000",
        made: || one(request::data(3, InfoKind::Vlan, InfoData::Vlan(vec![InfoVlan::Id(11)]))),
    },
    Row {
        command: "ip link del dev v2",
        header: (17, 0x5),
        sent: "00000000050000000000000000000000",
        made: || one(request::delete(5)),
    },
    Row {
        command: "ip link set dev lo up",
        header: (16, 0x5),
        sent: "00000000010000000100000001000000",
        made: || one(request::up(1)),
    },
];

fn bytes(digits: &str) -> Vec<u8> {
    (0..digits.len()).step_by(2).map(|at| u8::from_str_radix(&digits[at..at + 2], 16).unwrap()).collect()
}

#[test]
#[cfg_attr(target_endian = "big", ignore = "they were recorded on a little-endian machine")]
fn forty_commands_of_ip() {
    let mut same = 0;
    for row in ROWS {
        let mut made = (row.made)().unwrap();
        if row.command == "ip link show" {
            made.header.interface_family = AddressFamily::from(17);
        }
        assert_eq!((made.message_type, made.flags), row.header, "{}", row.command);
        let (packet, sent) = (made.packet(7).unwrap(), bytes(row.sent));
        assert_eq!(packet[..4], (packet.len() as u32).to_ne_bytes());
        assert_eq!(packet[8..16], [7u32.to_ne_bytes(), [0; 4]].concat());
        same += usize::from(packet[16..] == sent);
        // `ip` sends some texts without a NUL
        assert_eq!(canonical(&packet[16..]), canonical(&sent), "{}", row.command);
    }
    println!("{} commands, {same} of them the same bytes", ROWS.len());
    assert!(ROWS.len() > 40 && same > 20);
}

#[test]
fn what_is_too_long_is_not_sent() {
    assert_eq!(request::name(7, "exactly-fifteen").unwrap().check(), Ok(()));
    for name in ["", "sixteen-letters-", "a\0b"] {
        assert_eq!(request::name(7, name), Err(RequestError::Name), "{name:?}");
        assert_eq!(request::add(name, InfoKind::Dummy, None), Err(RequestError::Name), "{name:?}");
        assert_eq!(request::up(name), Err(RequestError::Name), "{name:?}");
    }
    assert_eq!(request::add_names(7, ["one", &"n".repeat(128)]), Err(RequestError::Name));
    assert!(request::add_names(7, ["one", &"n".repeat(127)]).is_ok());
    assert!(request::alias(7, &"a".repeat(255)).unwrap().packet(1).is_ok());
    assert_eq!(request::alias(7, &"a".repeat(256)), Err(RequestError::Alias));
    let long = request::up(7).unwrap().with(LinkAttribute::IfName("n".repeat(16)));
    assert_eq!((long.check(), long.packet(1)), (Err(RequestError::Name), Err(RequestError::Name)));
    let alias = request::up(7).unwrap().with(LinkAttribute::IfAlias("a".repeat(255)));
    assert_eq!(alias.check(), Err(RequestError::Alias));
    let large = request::up(7).unwrap().with(LinkAttribute::Other(DefaultNla::new(1, vec![0; 65532])));
    assert_eq!(large.packet(1), Err(RequestError::DoesNotFit));
    assert_eq!(RequestError::Alias.to_string(), "the alias is longer than 255 bytes");
}

#[test]
fn by_name_or_by_index() {
    let by_name = request::mtu("eth0", 1400).unwrap().message();
    assert_eq!(by_name.attributes, [LinkAttribute::IfName("eth0".to_string()), LinkAttribute::Mtu(1400)]);
    assert_eq!(request::namespace(3, 5).unwrap().message().attributes, [LinkAttribute::NetNsFd(5)]);
    let names = vec![String::from("eth0"), String::from("uplink")];
    let boxed: Box<str> = "eth0".into();
    for made in [request::mtu(&names[0], 1400), request::mtu(names[0].as_str(), 1400), request::mtu(&boxed, 1400)] {
        assert_eq!(made.unwrap().into_message(), by_name);
    }
    let listed = request::add_names(&names[0], &names);
    assert_eq!(listed, request::add_names("eth0", ["eth0", "uplink"]));
    assert_eq!(listed, request::add_names("eth0", names.iter()));
    assert_eq!(request::delete_names("eth0", &names[1..]), request::delete_names("eth0", ["uplink"]));
    assert_eq!(request::delete_names("eth0", vec![""]), Err(RequestError::Name));
    assert!(request::dump(&[]).message().attributes.is_empty());
    assert_eq!(request::get("eth0", &[]).unwrap().message().attributes.len(), 1);
}

/// Each attribute stands where it was put, and a packet is the message's encoding after netlink's header.
#[test]
fn attributes_in_their_order() {
    let name = |text: &str| LinkAttribute::IfName(text.to_string());
    let rows: &[Vec<LinkAttribute>] = &[
        vec![],
        vec![name("lo")],
        vec![name("lo"), name("eth0")],
        vec![LinkAttribute::Mtu(1), name("lo")],
        vec![name("lo"), LinkAttribute::Mtu(1), name("eth0"), LinkAttribute::Mtu(2)],
        vec![LinkAttribute::Mtu(1), LinkAttribute::Mtu(2), LinkAttribute::Mtu(3)],
        vec![name("exactly-fifteen"), LinkAttribute::Mtu(1)],
    ];
    for attributes in rows {
        let mut message = LinkMessage::default();
        message.attributes = attributes.clone();
        let request = Request::new(16, 5, message.clone());
        assert_eq!((request.message(), request.clone().into_message()), (message.clone(), message.clone()));
        assert_eq!(request.packet(1).unwrap()[16..], message.to_vec().unwrap());
        assert!(format!("{request:?}").contains(&format!("{message:?}")));
    }
    for text in ["", "sixteen-letters-", "a\0b"] {
        let mut message = LinkMessage::default();
        message.attributes.push(name(text));
        let request = Request::new(16, 5, message.clone());
        assert_eq!((request.message(), request.check()), (message, Err(RequestError::Name)));
    }
    let ports = Request::new(16, 5, LinkMessage::default()).with(LinkAttribute::VfPorts(vec![]));
    assert_eq!(ports.check(), Err(RequestError::DoesNotFit));
}
