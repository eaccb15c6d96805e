//! Keeps a table of interfaces: messages are read into rows, requests are built, and two dumps are compared.

use linkwire::AddressFamily;
use linkwire::link::{
    AfSpecInet, AfSpecInet6, AfSpecUnspec, In6AddrGenMode, LinkAttribute, LinkExtentMask, LinkFlags, LinkHeader,
    LinkLayerType, LinkMessage, LinkVfInfo, Prop, State, VfInfo, VfInfoTrust, VfInfoVlan,
};
use linkwire::{DecodeError, Emitable, NlaBuffer, NlasIterator};
use std::collections::BTreeMap;

/// What is kept of an interface.
#[derive(Debug, Default, Clone, PartialEq)]
struct Row {
    name: String,
    aliases: Vec<String>,
    mac: Vec<u8>,
    mtu: Option<u32>,
    state: Option<State>,
    flags: LinkFlags,
    functions: usize,
    forwarding: bool,
    received: u64,
}

fn read_row(bytes: &[u8]) -> Result<(u32, Row), DecodeError> {
    let message = LinkMessage::parse(bytes)?;
    let mut row = Row { flags: message.header.flags, ..Row::default() };
    for attribute in message.attributes.iter() {
        match attribute {
            LinkAttribute::IfName(name) => row.name = name.clone(),
            LinkAttribute::Address(mac) => row.mac = mac.to_vec(),
            LinkAttribute::Mtu(mtu) => row.mtu = Some(*mtu),
            LinkAttribute::OperState(state) => row.state = Some(*state),
            LinkAttribute::Stats64(stats) => row.received = stats.rx_bytes,
            LinkAttribute::VfInfoList(functions) => row.functions = functions.len(),
            LinkAttribute::PropList(props) => row.aliases.extend(props.iter().filter_map(|prop| match prop {
                Prop::AltIfName(name) => Some(name.clone()),
                _ => None,
            })),
            LinkAttribute::AfSpecUnspec(families) => {
                for family in families {
                    if let AfSpecUnspec::Inet(settings) = family {
                        let on = |it: &AfSpecInet| matches!(it, AfSpecInet::DevConf(conf) if conf.forwarding != 0);
                        row.forwarding = settings.iter().any(on);
                    }
                }
            }
            _ => (),
        }
    }
    Ok((message.header.index, row))
}

/// A request that brings an interface up, under a name and with functions that may be trusted.
fn request(index: u32, name: &str, trusted: &[u32]) -> LinkMessage {
    let mut message = LinkMessage::default();
    message.header.interface_family = AddressFamily::Unspec;
    message.header.link_layer_type = LinkLayerType::Ether;
    message.header.index = index;
    message.header.flags = LinkFlags::Up | LinkFlags::Multicast;
    message.header.change_mask = LinkFlags::Up;
    let function = |id: &u32| {
        LinkVfInfo(vec![VfInfo::Trust(VfInfoTrust::new(*id, true)), VfInfo::Vlan(VfInfoVlan::new(*id, 100, 0))])
    };
    message.attributes = vec![
        LinkAttribute::IfName(name.to_string()),
        LinkAttribute::ExtMask(vec![LinkExtentMask::Vf, LinkExtentMask::SkipStats]),
        LinkAttribute::VfInfoList(trusted.iter().map(function).collect()),
        LinkAttribute::AfSpecUnspec(vec![AfSpecUnspec::Inet6(vec![AfSpecInet6::AddrGenMode(In6AddrGenMode::None)])]),
    ];
    message.attributes.push(LinkAttribute::PropList(vec![Prop::AltIfName(format!("{name}-alt"))]));
    message
}

fn written(message: &LinkMessage) -> Vec<u8> {
    let mut bytes = vec![0; message.buffer_len()];
    message.emit(&mut bytes);
    bytes
}

/// Which interfaces came, went, or changed by more than their counters.
fn differences(old: &BTreeMap<u32, Row>, new: &BTreeMap<u32, Row>) -> Vec<String> {
    let mut found = Vec::new();
    for (index, row) in new {
        match old.get(index) {
            None => found.push(format!("{index} {} is new", row.name)),
            Some(before) if Row { received: 0, ..before.clone() } != Row { received: 0, ..row.clone() } => {
                found.push(format!("{index} {}: {} {:02x?} {:?}", row.name, row.flags, row.mac, row.state))
            }
            Some(_) => (),
        }
    }
    found.extend(old.keys().filter(|it| !new.contains_key(it)).map(|it| format!("{it} is gone")));
    found
}

fn main() -> Result<(), DecodeError> {
    let first = request(7, "eth7", &[0, 1]);
    let mut second = first.clone();
    second.header.flags.insert(LinkFlags::Running);
    second.attributes.push(LinkAttribute::Mtu(9000));
    second.attributes.retain(|it| !matches!(it, LinkAttribute::ExtMask(_)));
    let other = request(8, "eth8", &[]);
    let old: BTreeMap<u32, Row> = [read_row(&written(&first))?].into_iter().collect();
    let new = [read_row(&written(&second))?, read_row(&written(&other))?].into_iter().collect();
    for line in differences(&old, &new) {
        println!("{line}");
    }
    let bytes = written(&first);
    assert_eq!(LinkMessage::parse(&bytes)?, first);
    assert_eq!(LinkHeader::parse(&bytes)?.index, 7);
    for frame in NlasIterator::new(&bytes[16..]) {
        let frame: NlaBuffer<_> = frame?;
        println!("attribute {} of {} bytes", frame.kind(), frame.value().len());
    }
    println!("{:?}", LinkMessage::parse(&bytes[..18]).is_err());
    println!("{:?}", first.attributes);
    Ok(())
}
